/* What the page hears of a run, in the place of the calls of crates/page_calls/src/hooks.rt, which do nothing. Places and
   lengths go to it as doubles, which have every one that a browser's memory has. */
typedef unsigned char u8;
typedef unsigned long long u64;
#define FROM_PAGE(name) __attribute__((import_module("page"), import_name(name)))
FROM_PAGE("wrote") void host_wrote(unsigned unit, double at, double length);
FROM_PAGE("went") void host_went(double steps);

void page_wrote(unsigned unit, const u8 *bytes, u64 length) { host_wrote(unit & 255, (double)(u64)bytes, (double)length); }
void page_went(u64 steps) { host_went((double)steps); }
