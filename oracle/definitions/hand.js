// What the model has from no spec file: the numbers, lists and booleans of the libraries, `ascii`, `joined`, and the
// loop over the texts. model.py puts it after the definitions.

const nil = {head: undefined, tail: undefined};
const both = (a, b) => typeof a === 'number' && typeof b === 'number';
// A natural number is a Number while it is exact, and a BigInt above that.
const big = x => x <= BigInt(Number.MAX_SAFE_INTEGER) ? Number(x) : x;

const P = {
  nil, big,

  // numbers: `-` stops at 0
  add(a, b) { const r = both(a, b) ? a + b : NaN; return Number.isSafeInteger(r) ? r : big(BigInt(a) + BigInt(b)); },
  sub(a, b) { if (both(a, b)) return a < b ? 0 : a - b; return a < b ? 0 : big(BigInt(a) - BigInt(b)); },
  mul(a, b) { const r = both(a, b) ? a * b : NaN; return Number.isSafeInteger(r) ? r : big(BigInt(a) * BigInt(b)); },
  div(a, b) { return both(a, b) ? (a - a % b) / b : big(BigInt(a) / BigInt(b)); },
  mod(a, b) { return both(a, b) ? a % b : big(BigInt(a) % BigInt(b)); },
  pow(a, b) { return big(BigInt(a) ** BigInt(b)); },
  leb(a, b) { return a <= b; },
  ltb(a, b) { return a < b; },
  eqb(a, b) { return a === b; },
  not(a) { return !a; },

  // lists
  cons(head, tail) { return {head, tail}; },
  list(a, l = nil) { for (let i = a.length - 1; i >= 0; i--) l = {head: a[i], tail: l}; return l; },
  array(l) { const a = []; for (; l !== nil; l = l.tail) a.push(l.head); return a; },
  length(l) { let n = 0; for (; l !== nil; l = l.tail) n++; return n; },
  getOr(l, i, d) { l = P.drop(i, l); return l === nil ? d : l.head; },
  drop(n, l) { for (; n > 0 && l !== nil; n--) l = l.tail; return l; },
  take(n, l) { const a = []; for (; n > 0 && l !== nil; n--, l = l.tail) a.push(l.head); return P.list(a); },
  append(a, b) { return P.list(P.array(a), b); },

  // a value computed when it is asked for, once
  lazy(f) { return {f, v: undefined}; },
  force(t) { if (t.f) { t.v = t.f(); t.f = null; } return t.v; },

  // a function applied to any number of arguments
  ap(f, ...args) {
    while (args.length > f.length) {
      const n = f.length;
      f = f(...args.slice(0, n));
      args = args.slice(n);
    }
    if (args.length === f.length) return f(...args);
    switch (f.length - args.length) {
      case 1: return x => f(...args, x);
      case 2: return (x, y) => f(...args, x, y);
      case 3: return (x, y, z) => f(...args, x, y, z);
      default: throw new Error('too few arguments');
    }
  },
};

function characters$Text$ascii(s) {
  return P.list(Array.from(s, c => c.codePointAt(0)));
}

// The definition names `f p n (steps es t)` twice. Twice computed, it would double at each step.
function reading$Process$joined(t, end, es, f) {
  if (end.c !== 'End.Done') return {end, events: es};
  const o = P.ap(f, end.a0, end.a1, reading$Events$steps(es, t));
  return {end: o.end, events: P.append(es, o.events)};
}

const words = o => P.array(reading$Events$records_of(o.events)).map(r => P.array(records$Rows$words(r)).map(String));

// The engine has no limits, so the call has the highest: records, levels, comparisons.
function answer(text, file) {
  const o = grammar$Units$full(P.list(Array.from(text)), 65535, 256, 4294967295, file);
  const place = reading$Answers$end_place(o.end);
  return JSON.stringify({
    number: reading$Answers$end_number(o.end), line: place.line, column: place.column,
    records: words(o), comparisons: reading$Events$comparisons_of(o.events),
  });
}

// A call and its answer in the form of the second reading (oracle/second/main.rs).
function called(line) {
  const [hex, records, nesting, comparisons, file] = line.split(' ');
  const text = P.list(Array.from(Buffer.from(hex, 'hex')));
  const o = grammar$Units$full(text, Number(records), Number(nesting), Number(comparisons), file === '1');
  const place = reading$Answers$end_place(o.end), rows = words(o);
  const counts = [rows.length, reading$Events$comparisons_of(o.events)];
  return [reading$Answers$end_number(o.end), place.line, place.column, ...counts, ...rows.flat()].join(' ');
}

// In: a text a line, in hex. Out: an answer a line. With `--file-form` the texts are read in the file form; with `--calls` each
// line is a call with its limits.
const fs = require('fs');
const option = process.argv[2];
const say = option === '--calls' ? called : hex => answer(Buffer.from(hex, 'hex'), option === '--file-form');
for (const line of fs.readFileSync(0, 'latin1').split('\n').slice(0, -1)) {
  let said;
  try { said = say(line); } catch (e) { said = JSON.stringify({error: String(e)}); }
  fs.writeSync(1, said + '\n');
}
