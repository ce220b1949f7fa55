// What the page knows of decks: how cards are cut into statements (docs/language.md, Cards), what a listing says of them,
// and a deck that tells of each statement before it is done, for the profile and the trace.

const COLUMNS = 72;
const isBlank = (text) => /^ *$/.test(text);

// The texts of a deck: cards joined with their continuations, each with the cards that its bytes come from, until END.
function texts(deck) {
  const cards = deck.split('\n'), found = [];
  if (cards[cards.length - 1] === '') cards.pop();
  for (let n = 0; n < cards.length; n++) {
    const card = cards[n].slice(0, COLUMNS);
    if (card[0] === '*' || card[0] === '-' || isBlank(card)) continue;
    const last = found[found.length - 1];
    if (/^[+.]/.test(card)) {
      if (last) { last.text += card.slice(1); last.cards.push(...Array(card.length - 1).fill(n + 1)); }
    } else found.push({ text: card, cards: Array(card.length).fill(n + 1) });
    const now = found[found.length - 1];
    if (now && pieces(now.text).some((piece) => isEnd(piece.text))) break;
  }
  return found;
}

const isEnd = (piece) => /^END( |$)/.test(piece);

// The pieces of a text: what stands between semicolons outside literals.
function pieces(text) {
  const found = [];
  let from = 0, quote = '';
  for (let at = 0; at <= text.length; at++) {
    const mark = text[at];
    if (quote) { if (mark === quote) quote = ''; else if (mark === undefined) { quote = ''; } else continue; if (mark !== undefined) continue; }
    if (mark === "'" || mark === '"') quote = mark;
    else if (mark === ';' || mark === undefined) { found.push({ text: text.slice(from, at), from }); from = at + 1; }
  }
  return found.filter((piece) => !isBlank(piece.text));
}

// The statements of a deck, each with its text, the card where it begins and that where it ends.
export function statements(deck) {
  const found = [];
  for (const { text, cards } of texts(deck)) for (const piece of pieces(text)) {
    found.push({ text: piece.text, card: cards[piece.from], last: cards[piece.from + piece.text.length - 1] });
    if (isEnd(piece.text)) return found;
  }
  return found;
}

// A statement as cards of 72 columns.
function cardsOf(text) {
  let cards = text.slice(0, COLUMNS);
  for (let at = COLUMNS; at < text.length; at += COLUMNS - 1) cards += '\n+' + text.slice(at, at + COLUMNS - 1);
  return cards + '\n';
}

// A statement without its literals, for what is looked for outside them.
const bare = (text) => text.replace(/'[^']*('|$)|"[^"]*("|$)/g, (literal) => ' '.repeat(literal.length));
const NAME = '[A-Za-z][A-Za-z0-9._]*';

// The variables that a deck assigns, as far as its text shows it, but for those of units.
export function variables(deck) {
  const names = new Set(), units = new Set(['INPUT', 'OUTPUT', 'PUNCH']);
  for (const { text } of statements(deck)) {
    for (const [, name] of text.matchAll(new RegExp(`\\b(?:INPUT|OUTPUT)\\(\\.?['"]?(${NAME})`, 'g'))) units.add(name);
    for (const [, called, args, locals] of text.matchAll(new RegExp(`DEFINE\\(['"](${NAME})\\(([^)]*)\\)([^'"]*)`, 'g')))
      for (const name of [called, ...args.split(','), ...locals.split(',')]) if (new RegExp(`^${NAME}$`).test(name)) names.add(name);
    const body = bare(text).replace(new RegExp(`^${NAME}`), '');
    const subject = new RegExp(`^ +(${NAME}) +(?:[^=]* )?=( |$)`).exec(body);
    if (subject && !isEnd(text)) names.add(subject[1]);
    for (const [, name] of body.matchAll(new RegExp(` [.$] (${NAME})(?![A-Za-z0-9._(<])`, 'g'))) names.add(name);
    for (const [, name] of body.matchAll(new RegExp(`@(${NAME})(?![A-Za-z0-9._(<])`, 'g'))) names.add(name);
  }
  return [...names].filter((name) => !units.has(name));
}

// A deck that writes the number of each statement to a unit before it does it, and then the type of each of some variables
// and, of a string or an integer, the value. Nothing, where the deck looks at what that changes.
export function telling(deck, unit, watched) {
  const all = statements(deck), plain = all.map((each) => bare(each.text).replace(/^([^ ]* +)&STLIMIT +=/, '$1')).join('\n');
  if (!all.length || !isEnd(all[all.length - 1].text) || /&(OUTPUT|STLIMIT|STCOUNT|STNO|LASTNO|STFCOUNT)\b/.test(plain)) return null;
  let teller = 'TOLD';
  while (deck.includes(teller)) teller += '.';
  const each = 2 + 2 * watched.length, entry = new RegExp(`^END +(${NAME})`).exec(all[all.length - 1].text);
  // A limit of statements counts what this deck has more.
  const limit = (count) => (entry ? 3 : 2) + count * each;
  let made = ` OUTPUT(.${teller},${unit})\n &STLIMIT = ${limit(50000)}\n`;
  if (entry) made += cardsOf(` :(${entry[1]})`);
  for (let n = 0; n < all.length - 1; n++) {
    const [, label, rest] = new RegExp(`^(${NAME})?(.*)$`).exec(all[n].text);
    made += cardsOf(`${label ?? ''} ${teller} = ${n + 1}`);
    for (const name of watched) made += cardsOf(` ${teller} = DATATYPE(${name})`) + cardsOf(` ${teller} = CONVERT(${name},'STRING')`);
    const raised = rest.replace(/^( +&STLIMIT +=  *)(\d{1,9})(?= *(:|$))/, (_, front, count) => front + limit(Number(count)));
    made += cardsOf(isBlank(rest) ? " ''" : raised);
  }
  return made + 'END\n';
}

// What stands on a listing's lines: its cards, each with the numbers of its statements, and under it what is reported.
export function readListing(text) {
  const lines = text.split('\n'), cards = [];
  let now = null;
  const begin = (card, first, last, text) => cards.push(now = { card, first, last, text, faults: [], code: [] });
  for (const line of lines) {
    const card = /^ {0,5}(\d+) +(?:(\d+)(?:-(\d+))? +)?/.exec(line.slice(0, 16));
    if (card && line.length >= 15 && !/^\d+ cards?, /.test(line)) begin(Number(card[1]), Number(card[2] ?? 0), Number(card[3] ?? card[2] ?? 0), line.slice(16));
    else if (line.startsWith(' '.repeat(15))) {
      const told = line.slice(16), fault = /^(?:statement \d+|card (\d+)) [LPC]\d$/.exec(told);
      // A fault can be one of a card that isn't there, behind the last.
      if (fault?.[1] && Number(fault[1]) !== now?.card) begin(Number(fault[1]), 0, 0, '');
      if (!now) continue;
      if (fault) { now.faults.push({ cause: told, column: now.caret, text: '' }); now.caret = undefined; } else if (/^ *\^$/.test(line.slice(15))) now.caret = line.length - 17;
      else if (/^[0-9a-f]{8} [A-Z]/.test(told)) now.code.push(told);
      else if (now.faults.length) now.faults[now.faults.length - 1].text += told.trim() + ' ';
      else now.text += told;
    }
  }
  return { cards, counts: lines.find((line) => /^\d+ cards?, /.test(line)) ?? '' };
}
