// What may stand next in a line, by the words of `help` that the module answers: `cost AREA ROUTER LINK METRIC`, where words
// in capitals stand for others, `[..]` may be left out, and `|` separates what may stand in parentheses, or without them at the
// end, from the first other word on.

const isLiteral = (token) => !/^[A-Z]/.test(token);
const isRepeated = (token) => /[A-Z]\.\.$/.test(token);
const CLOSED = { KIND: ['intra', 'inter', 'ext1', 'ext2', 'own'], OP: ['<=', '=', '>='] };
// What tells a prefix from a neighbor.
const FORMS = { PREFIX: (word) => word.includes('/'), NEIGHBOR: (word) => !word.includes('/') };

// The sequences of words that a text of `help` stands for.
function sequencesOf(text) {
  const partsOf = (part) => part.match(/\[[^\]]*\]|\S+/g) ?? [];
  const [, before, inside, after] = /^(.*)\((.*)\)(.*)$/.exec(text) ?? [];
  if (inside) return inside.split(' | ').flatMap((one) => withOptions([before, one, after].flatMap(partsOf)));
  const [first, ...others] = text.split(' | ').map(partsOf);
  const front = first.slice(0, Math.max(0, first.findIndex(isLiteral)));
  return [first, ...others.map((other) => [...front, ...other])].flatMap(withOptions);
}

// The same sequence with and without each part that may be left out.
function withOptions(parts) {
  const added = (all, part) => {
    const words = part.replace(/[[\]]/g, '').split(' ');
    const longer = all.map((sequence) => [...sequence, ...words]);
    return part.startsWith('[') ? [...longer, ...all] : longer;
  };
  return parts.reduce(added, [[]]);
}

const tokenAt = (sequence, k) => sequence[k] ?? (isRepeated(sequence.at(-1) ?? '') ? sequence.at(-1) : null);
const isOf = (token, word) => FORMS[token]?.(word) ?? (!CLOSED[token] || CLOSED[token].includes(word));
const fits = (token, word) => token !== null && (isLiteral(token) ? token === word : isOf(token, word));
const beginsWith = (sequence, words) => words.every((word, k) => fits(tokenAt(sequence, k), word));

// What a sequence has after words, with what its words in capitals stand for; null where it does not begin with them, or ends.
function nextOf(sequence, words) {
  const token = beginsWith(sequence, words) ? tokenAt(sequence, words.length) : null;
  return token && { token, named: Object.fromEntries(words.map((word, k) => [tokenAt(sequence, k), word])) };
}

class Grammar {
  // Of the words of a reply to `help`: lines have a meaning, conditions have none.
  constructor(words) {
    const read = ({ line, meaning }, at) => {
      const [first, ...rest] = line.split(' ').slice(at);
      return { word: first, form: line, meaning, sequences: sequencesOf(rest.join(' ')) };
    };
    this.lines = words.filter(({ meaning }) => meaning).map((one) => read(one, 0));
    this.conditions = words.filter(({ meaning }) => !meaning).map((one) => read(one, 1));
  }

  // What the words of a line lead to: those of its first word, or of its condition.
  found(words) {
    if (words[0] !== 'expect') return { forms: this.lines.filter(({ word }) => word === words[0]), rest: words.slice(1) };
    const at = words[1] === 'not' ? 2 : 1;
    return { forms: this.conditions.filter(({ word }) => word === words[at]), rest: words.slice(at + 1) };
  }

  // What may stand after words: tokens, each with what it is and what the words before it stand for.
  next(words) {
    const literal = (token, about) => ({ token, about, named: {} });
    if (!words.length) return this.lines.map(({ word, meaning }) => literal(word, meaning));
    const isCondition = words[0] === 'expect' && (words.length === 1 || (words.length === 2 && words[1] === 'not'));
    if (isCondition) {
      const not = words.length === 1 ? [literal('not', 'where the condition does not hold')] : [];
      return [...this.conditions.map(({ word, form }) => literal(word, form.replace(/^expect \S+ ?/, ''))), ...not];
    }
    const { forms, rest } = this.found(words), found = new Map();
    for (const { sequences } of forms) {
      for (const next of sequences.map((sequence) => nextOf(sequence, rest))) {
        if (next && !found.has(next.token)) found.set(next.token, next);
      }
    }
    return [...found.values()];
  }

  // Whether words are a whole line.
  isWhole(words) {
    const { forms, rest } = this.found(words);
    const isEnough = (sequence) => rest.length === sequence.length || (rest.length > sequence.length && isRepeated(sequence.at(-1) ?? ''));
    return forms.some(({ sequences }) => sequences.some((sequence) => isEnough(sequence) && beginsWith(sequence, rest)));
  }
}
