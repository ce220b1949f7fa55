// The site: each deck of its pages is run where it stands.
import path from 'path';

export async function useSite({ b, check, click, until, shot, open }, site) {
  for (const [each, count] of [['tutorial', 15], ['porting', 5], ['language', 80]]) {
    await open(path.join(site, `${each}.html`));
    const boxes = await b.value("document.querySelectorAll('.deck').length");
    check(`${each} has its decks`, boxes >= count, boxes);
    for (let n = 0; n < boxes; n++) {
      await b.value(`(document.querySelectorAll('.deck')[${n}].querySelector('button').click(), true)`);
      const is = await until(`document.querySelectorAll('.deck')[${n}].querySelector('button').textContent === 'Run'`);
      const said = await b.value(`document.querySelectorAll('.deck')[${n}].querySelector('.end').textContent`);
      check(`deck ${n} of ${each} comes to what the page says`, is && (each === 'language' ? !/Error|fail/.test(said) : await isSaid(b, n, said)), said);
    }
    if (each === 'tutorial') await theRefused({ b, check, shot });
    await shot(`site-${each}`);
  }
  await b.value("(document.getElementById('search').value = 'BREAK', document.getElementById('search').oninput(), true)");
  check('a search finds', (await b.value("document.querySelectorAll('#found li').length")) > 3);
  await click('#theme');
  check('the site is dark where that is asked', await until("document.documentElement.dataset.theme === 'dark'"));
  await shot('site-dark');
}

// Whether a deck printed and reported what its page shows of it: each page shows something.
async function isSaid(b, n, said) {
  const { prints, told } = JSON.parse(await b.value(`document.querySelectorAll('.deck')[${n}].dataset.given`));
  if (prints === null && told === null) return false;
  return (prints === null || /, and prints .*what the page says/.test(said)) && (told === null || /\breports what the page says/.test(said));
}

// A deck that is refused prints nothing, and its messages name card, statement and cause.
async function theRefused({ b, check, shot }) {
  const all = await b.value("[...document.querySelectorAll('.deck')].filter((each) => each.dataset.status === '3').map((each) => [each.querySelector('.end').textContent, each.querySelector('.printed').textContent, each.querySelector('.told').textContent])");
  check('one deck of the tutorial is refused', all.length === 1, all.length);
  const [[end, printed, told] = []] = all;
  check('and its message stands apart from what decks print', end === 'refused, and reports what the page says' && printed === '' && told.startsWith('Card 2, statement 2 P1. The statement has no form'), end, printed, told);
  await b.value("(document.querySelector('.deck[data-status=\"3\"]').scrollIntoView(), true)");
  await shot('site-refused');
}
