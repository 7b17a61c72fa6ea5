"use strict";
// Python's own behaviour, for the tools' modules that web/translate.py translates: integers of any size, truth,
// equality and order by value, dictionaries and sets, the methods of strings, lists and bytes, regular expressions.
const P = (() => {
  class Exception extends Error {
    constructor(message = "") {
      super(message);
      this.name = new.target.name;
    }
  }
  const fault = (name) => ({ [name]: class extends Exception {} })[name];
  const [KeyError, TypeError, ValueError] = ["KeyError", "TypeError", "ValueError"].map(fault);
  const [AssertionError, UnicodeDecodeError, OSError, StopIteration] =
    ["AssertionError", "UnicodeDecodeError", "OSError", "StopIteration"].map(fault);
  const none = (value) => (value === undefined ? null : value);

  // Numbers: a number if it is exact, otherwise a BigInt.

  const exact = (value) =>
    value >= Number.MIN_SAFE_INTEGER && value <= Number.MAX_SAFE_INTEGER ? Number(value) : value;
  const isNumber = (value) => typeof value === "number" || typeof value === "boolean" || typeof value === "bigint";
  const isWord = (value) => typeof value === "number" && value >= 0 && value <= 0xffffffff;
  function reckoned(a, b, plain, large) {
    if (typeof a !== "bigint" && typeof b !== "bigint") {
      const value = plain(Number(a), Number(b));
      if (Number.isSafeInteger(value)) return value;
    }
    return exact(large(BigInt(a), BigInt(b)));
  }
  const floored = (a, b) => {
    const value = a / b;
    return value * b !== a && a < 0n !== b < 0n ? value - 1n : value;
  };

  // Values as keys: equal values have equal keys.

  function keyOf(value) {
    switch (typeof value) {
      case "string":
      case "number":
        return value;
      case "boolean":
        return Number(value);
      case "undefined":
        return null;
      default:
        if (Array.isArray(value)) return `\u0001[${value.map(part).join("\u0001,")}]`;
        if (value instanceof Uint8Array) return `\u0001b${value.join()}`;
        if (value?.constructor?.fields) {
          const name = value.constructor.name;
          return `\u0001${name}(${value.constructor.fields.map((it) => part(value[it])).join("\u0001,")})`;
        }
        return value;
    }
  }
  const part = (value) => `${typeof value === "string" ? '"' : ""}${String(keyOf(value))}`;
  class Dict {
    constructor(pairs = []) {
      this.held = new Map();
      for (const [key, value] of pairs) this.set(key, value);
    }
    set(key, value) {
      const of = keyOf(key), had = this.held.get(of);
      if (had) had[1] = value;
      else this.held.set(of, [key, value]);
    }
    has(key) {
      return this.held.has(keyOf(key));
    }
    get(key, other = null) {
      return this.held.get(keyOf(key))?.[1] ?? other;
    }
    at(key) {
      const found = this.held.get(keyOf(key));
      if (!found) throw new KeyError(String(key));
      return found[1];
    }
    items() {
      return [...this.held.values()].map(([key, value]) => [key, value]);
    }
    keys() {
      return [...this.held.values()].map(([key]) => key);
    }
    values() {
      return [...this.held.values()].map(([, value]) => value);
    }
    setdefault(key, value = null) {
      const of = keyOf(key);
      if (!this.held.has(of)) this.held.set(of, [key, value]);
      return this.held.get(of)[1];
    }
    update(more) {
      for (const [key, value] of more instanceof Dict ? more.held.values() : each(more)) this.set(key, value);
      return null;
    }
    pop(key, other) {
      const of = keyOf(key), found = this.held.get(of);
      this.held.delete(of);
      if (!found && other === undefined) throw new KeyError(String(key));
      return found ? found[1] : other;
    }
    *[Symbol.iterator]() {
      for (const [key] of this.held.values()) yield key;
    }
    get size() {
      return this.held.size;
    }
  }
  class Group {
    constructor(values = []) {
      this.held = new Map();
      for (const value of values) this.add(value);
    }
    add(value) {
      const of = keyOf(value);
      if (!this.held.has(of)) this.held.set(of, value);
      return null;
    }
    has(value) {
      return this.held.has(keyOf(value));
    }
    discard(value) {
      this.held.delete(keyOf(value));
      return null;
    }
    update(...more) {
      for (const values of more) for (const value of each(values)) this.add(value);
      return null;
    }
    difference_update(values) {
      for (const value of each(values)) this.discard(value);
      return null;
    }
    *[Symbol.iterator]() {
      // (Python orders small integers by value; the order of strings is unspecified)
      const values = [...this.held.values()];
      yield* values.every((it) => typeof it === "number") ? values.sort((a, b) => a - b) : values;
    }
    get size() {
      return this.held.size;
    }
  }
  const dict = (pairs = []) => new Dict(pairs instanceof Dict ? pairs.held.values() : each(pairs));
  dict.fromkeys = (keys, value = null) => new Dict(list(keys).map((key) => [key, value]));
  const set = (values = []) => new Group(each(values));

  // Iteration, truth, equality, order.

  function each(value) {
    if (value === null || value === undefined) throw new TypeError("the value can't be iterated over");
    return value;
  }
  const list = (value = []) => [...each(value)];
  function truth(value) {
    if (!value) return false;
    if (typeof value !== "object") return true;
    if (Array.isArray(value) || value instanceof Uint8Array) return value.length > 0;
    return value instanceof Dict || value instanceof Group ? value.size > 0 : true;
  }
  function eq(a, b) {
    if (a === b) return true;
    if (typeof a !== "object" || typeof b !== "object" || !a || !b) return isNumber(a) && isNumber(b) && a == b;
    if (Array.isArray(a) || a instanceof Uint8Array)
      return a.constructor === b.constructor && a.length === b.length && a.every((it, k) => eq(it, b[k]));
    if (a instanceof Group) return b instanceof Group && a.size === b.size && [...a].every((it) => b.has(it));
    if (a instanceof Dict)
      return b instanceof Dict && a.size === b.size && a.keys().every((it) => b.has(it) && eq(a.get(it), b.get(it)));
    const fields = a.constructor.fields;
    return Boolean(fields) && a.constructor === b.constructor && fields.every((it) => eq(a[it], b[it]));
  }
  function order(a, b) {
    if (Array.isArray(a)) {
      for (let k = 0; k < Math.min(a.length, b.length); k++) {
        const found = order(a[k], b[k]);
        if (found) return found;
      }
      return a.length - b.length;
    }
    const fields = a?.constructor?.fields;
    if (fields) return order(fields.map((it) => a[it]), fields.map((it) => b[it]));
    return a < b ? -1 : a > b ? 1 : 0;
  }
  function contains(whole, it) {
    if (typeof whole === "string") return whole.includes(it);
    if (whole instanceof Dict || whole instanceof Group) return whole.has(it);
    return list(whole).some((one) => eq(one, it));
  }

  // Operators.

  function add(a, b) {
    if (typeof a === "string") return a + b;
    if (Array.isArray(a)) return [...a, ...b];
    if (a instanceof Uint8Array) return octets([...a, ...b]);
    return reckoned(a, b, (x, y) => x + y, (x, y) => x + y);
  }
  function sub(a, b) {
    if (a instanceof Group) return new Group([...a].filter((it) => !b.has(it)));
    return reckoned(a, b, (x, y) => x - y, (x, y) => x - y);
  }
  function mul(a, b) {
    if (typeof a === "string") return a.repeat(Math.max(0, Number(b)));
    if (Array.isArray(a)) return Array.from({ length: Number(b) * a.length }, (_, k) => a[k % a.length]);
    if (a instanceof Uint8Array) return octets(mul([...a], b));
    return Array.isArray(b) || typeof b === "string" ? mul(b, a) : reckoned(a, b, (x, y) => x * y, (x, y) => x * y);
  }
  const floordiv = (a, b) => reckoned(a, b, (x, y) => Math.floor(x / y), floored);
  const mod = (a, b) => reckoned(a, b, (x, y) => ((x % y) + y) % y, (x, y) => ((x % y) + y) % y);
  const pow = (a, b) => exact(BigInt(a) ** BigInt(b));
  const bitwise = (plain, large) => (a, b) => (isWord(a) && isWord(b) ? plain(a, b) >>> 0 : exact(large(BigInt(a), BigInt(b))));
  const andWords = bitwise((a, b) => a & b, (a, b) => a & b), orWords = bitwise((a, b) => a | b, (a, b) => a | b);
  const xor = bitwise((a, b) => a ^ b, (a, b) => a ^ b);
  const and_ = (a, b) => (a instanceof Group ? new Group([...a].filter((it) => b.has(it))) : andWords(a, b));
  function or_(a, b) {
    if (a instanceof Group) return new Group([...a, ...b]);
    if (a instanceof Dict) return new Dict([...a.items(), ...b.items()]);
    return orWords(a, b);
  }
  const lshift = (a, b) => reckoned(a, b, (x, y) => (y < 64 ? x * 2 ** y : Infinity), (x, y) => x << y);
  const rshift = (a, b) => reckoned(a, b, (x, y) => Math.floor(x / 2 ** y), (x, y) => x >> y);
  const invert = (a) => sub(-1, a);
  const signs = { add, sub, mul, floordiv, mod, and_, or_, xor, lshift, rshift };
  // `a += b` and similar, which change a list, a set or a dictionary in place.
  function within(name, a, b) {
    if (Array.isArray(a) && name === "add") for (const it of list(b)) a.push(it);
    else if (a instanceof Group && name === "or_") a.update(b);
    else if (a instanceof Group && name === "sub") a.difference_update(b);
    else if (a instanceof Group && name === "and_") for (const it of list(a)) b.has(it) || a.discard(it);
    else if (a instanceof Dict && name === "or_") a.update(b);
    else return signs[name](a, b);
    return a;
  }

  // Indexing.

  function at(of, k) {
    if (of instanceof Dict || of instanceof Match) return of.at(k);
    if (k < -of.length || k >= of.length) throw new KeyError(String(k));
    return of[k < 0 ? of.length + k : Number(k)];
  }
  function put(of, k, value) {
    if (of instanceof Dict) of.set(k, value);
    else of[k < 0 ? of.length + k : k] = value;
  }
  const bound = (value) => (value === null ? undefined : exact(value > 2 ** 40 ? 2 ** 40 : value));
  function slice(of, from, to, step = null) {
    const part = of.slice(bound(from), bound(to));
    return step === null ? part : part.filter((_, k) => k % step === 0);
  }
  // Returns the value for a key, from pairs of a key and a function that computes the value.
  function chosen(key, pairs) {
    const found = pairs.find(([one]) => eq(one, key));
    if (!found) throw new KeyError(String(key));
    return found[1]();
  }
  // Collects the elements of a list, from one index up to `after` elements before the end, into one list.
  const gathered = (value, before, after) => {
    const all = list(value), end = all.length - after;
    return [...all.slice(0, before), all.slice(before, end), ...all.slice(end)];
  };
  const octets = (values) => Uint8Array.from(values);

  // Strings.

  const SPACE = /[\t-\r\x1c-\x20\x85\xa0\u1680\u2000-\u200a\u2028\u2029\u202f\u205f\u3000]/u;
  const ENDS = /\r\n|[\n-\r\x1c-\x1e\x85\u2028\u2029]/gu;
  const of = (given) => (typeof given === "string" ? (letter) => given.includes(letter) : (letter) => SPACE.test(letter));
  function stripped(text, given, left, right) {
    const isGone = of(given);
    let [from, to] = [0, text.length];
    while (left && from < to && isGone(text[from])) from++;
    while (right && to > from && isGone(text[to - 1])) to--;
    return text.slice(from, to);
  }
  const SPACES = new RegExp(`${SPACE.source}+`, "u");
  function words(text, most) {
    if (most < 0) return text.split(SPACES).filter(Boolean);
    const found = [];
    let rest = stripped(text, null, true, false);
    while (rest) {
      const end = found.length === most ? -1 : rest.search(SPACE);
      found.push(end < 0 ? rest : rest.slice(0, end));
      rest = end < 0 ? "" : stripped(rest.slice(end), null, true, false);
    }
    return found;
  }
  function splitAt(text, sign, most) {
    const parts = text.split(sign);
    return most === undefined || most < 0 || parts.length <= most + 1
      ? parts
      : [...parts.slice(0, most), parts.slice(most).join(sign)];
  }
  const TEXT = {
    split(text, sign, most) {
      if (sign && typeof sign === "object") [sign, most] = [sign.sep, sign.maxsplit];
      if (most && typeof most === "object") most = most.maxsplit;
      return sign === undefined || sign === null ? words(text, most ?? -1) : splitAt(text, sign, most);
    },
    strip: (text, given) => stripped(text, given, true, true),
    lstrip: (text, given) => stripped(text, given, true, false),
    rstrip: (text, given) => stripped(text, given, false, true),
    join: (text, parts) => list(parts).join(text),
    startswith: (text, given) => (typeof given === "string" ? text.startsWith(given) : given.some((one) => text.startsWith(one))),
    endswith: (text, given) => [given].flat().some((one) => text.endsWith(one)),
    partition(text, sign) {
      const place = text.indexOf(sign);
      return place < 0 ? [text, "", ""] : [text.slice(0, place), sign, text.slice(place + sign.length)];
    },
    rpartition(text, sign) {
      const place = text.lastIndexOf(sign);
      return place < 0 ? ["", "", text] : [text.slice(0, place), sign, text.slice(place + sign.length)];
    },
    replace: (text, old, now) => text.replaceAll(old, () => now),
    splitlines(text, keep) {
      const keeps = Boolean(keep && (keep === true || keep.keepends)), lines = [];
      let from = 0;
      for (const found of text.matchAll(ENDS)) {
        lines.push(text.slice(from, keeps ? found.index + found[0].length : found.index));
        from = found.index + found[0].length;
      }
      return from < text.length ? [...lines, text.slice(from)] : lines;
    },
    upper: (text) => text.toUpperCase(),
    lower: (text) => text.toLowerCase(),
    capitalize: (text) => text.slice(0, 1).toUpperCase() + text.slice(1).toLowerCase(),
    removeprefix: (text, it) => (text.startsWith(it) ? text.slice(it.length) : text),
    removesuffix: (text, it) => (it && text.endsWith(it) ? text.slice(0, -it.length) : text),
    isdigit: (text) => /^\p{Nd}+$/u.test(text),
    isascii: (text) => /^[\0-\x7f]*$/.test(text),
    isidentifier: (text) => /^[\p{L}_][\p{L}\p{Nd}_]*$/u.test(text),
    count: (text, it) => text.split(it).length - 1,
    index: (text, it) => text.indexOf(it),
    encode: (text) => new TextEncoder().encode(text),
  };
  const LIST = {
    append: (it, value) => void it.push(value),
    extend: (it, values) => void it.push(...each(values)),
    pop: (it, k) => (k === undefined ? it.pop() : it.splice(k, 1)[0]),
    index: (it, value) => it.findIndex((one) => eq(one, value)),
    insert: (it, k, value) => void it.splice(k, 0, value),
    count: (it, value) => it.filter((one) => eq(one, value)).length,
    sort: (it, how) => void it.splice(0, it.length, ...sorted(it, how)),
    copy: (it) => [...it],
    clear: (it) => void it.splice(0, it.length),
  };
  const BYTES = {
    hex: (it) => Array.from(it, (one) => one.toString(16).padStart(2, "0")).join(""),
    join: (it, parts) => octets(list(parts).flatMap((one) => [...one])),
    decode(it) {
      try {
        return new TextDecoder("utf-8", { fatal: true, ignoreBOM: true }).decode(it);
      } catch {
        throw new UnicodeDecodeError("it isn't UTF-8");
      }
    },
  };
  const NUMBER = { bit_length: (it) => (it ? BigInt(it < 0 ? -it : it).toString(2).length : 0) };
  function methodsOf(value) {
    if (typeof value === "string") return TEXT;
    if (Array.isArray(value)) return LIST;
    if (value instanceof Uint8Array) return BYTES;
    return isNumber(value) ? NUMBER : null;
  }
  function call(it, name, ...given) {
    const methods = methodsOf(it);
    return none(methods ? methods[name](it, ...given) : it[name](...given));
  }
  function boundOf(it, name) {
    const method = methodsOf(it)?.[name];
    if (method) return (...given) => none(method(it, ...given));
    const value = it[name];
    return typeof value === "function" && !value.fields ? Object.assign(value.bind(it), { names: value.names }) : value;
  }
  // A call with keyword arguments.
  function keywords(called, given, named) {
    if (!called.names) return called(...given, named);
    const all = [...given];
    for (const [name, value] of Object.entries(named)) all[called.names.indexOf(name)] = value;
    return called.fields || called.prototype instanceof Exception ? new called(...all) : called(...all);
  }

  // Python's own functions.

  function str(value) {
    if (value === null || value === undefined) return "None";
    if (typeof value === "boolean") return value ? "True" : "False";
    return value instanceof Exception ? value.message : String(value);
  }
  function form(value, how) {
    const [, zero, width, comma, kind] = /^(0?)(\d*)(,?)([xd]?)$/.exec(how);
    if (!how || !isNumber(value)) return str(value).padEnd(Number(width || 0));
    const text = kind === "x" ? Math.sign(Number(value)) < 0 ? `-${(-value).toString(16)}` : value.toString(16) : str(Number(value));
    return (comma ? text.replace(/\B(?=(\d{3})+$)/g, ",") : text).padStart(Number(width || 0), zero || " ");
  }
  function int(value, base = 10) {
    if (isNumber(value)) return Number.isInteger(value) || typeof value === "bigint" ? value : Math.trunc(Number(value));
    const text = value.trim().replaceAll("_", ""), digits = text.replace(/^0[xX]/, ""), isHex = base === 16 || (!base && digits !== text);
    if (!(isHex ? /^[0-9a-fA-F]+$/ : /^[+-]?[0-9]+$/).test(digits)) throw new ValueError(`not a number: ${value}`);
    return exact(BigInt(isHex ? `0x${digits}` : digits));
  }
  int.from_bytes = (value, way) => {
    if (value.length > 6) return large(value, way);
    let sum = 0;
    for (let k = 0; k < value.length; k++) sum = sum * 256 + value[way === "little" ? value.length - 1 - k : k];
    return sum;
  };
  const large = (value, way) =>
    exact([...(way === "little" ? [...value].reverse() : value)].reduce((sum, one) => sum * 256n + BigInt(one), 0n));
  const bytes = (given) => (typeof given === "number" ? new Uint8Array(given) : octets(list(given)));
  bytes.fromhex = (text) => octets((text.match(/[0-9a-fA-F]{2}/g) ?? []).map((one) => parseInt(one, 16)));
  function sorted(values, how = {}) {
    const key = how.key ?? ((it) => it), pairs = list(values).map((it) => [key(it), it]);
    pairs.sort(([a], [b]) => order(a, b));
    return (how.reverse ? pairs.reverse() : pairs).map(([, it]) => it);
  }
  function extreme(sign, given) {
    const how = given.at(-1)?.constructor === Object ? given.pop() : {}, key = how.key ?? ((it) => it);
    const values = given.length === 1 ? list(given[0]) : given;
    if (!values.length) return how.default;
    return values.reduce((best, it) => (sign * order(key(it), key(best)) > 0 ? it : best));
  }
  function* zip(...all) {
    const each = all.map((it) => it[Symbol.iterator]());
    while (each.length) {
      const row = [];
      for (const it of each) {
        const { value, done } = it.next();
        if (done) return;
        row.push(value);
      }
      yield row;
    }
  }
  function* enumerate(values, from = 0) {
    for (const it of each(values)) yield [from++, it];
  }
  function* map(way, ...values) {
    for (const given of zip(...values)) yield way(...given);
  }
  function* filter(way, values) {
    for (const it of each(values)) if (way === null ? truth(it) : truth(way(it))) yield it;
  }
  function range(from, to, step = 1) {
    if (to === undefined) [from, to] = [0, from];
    const made = [];
    for (let k = from; step > 0 ? k < to : k > to; k += step) made.push(k);
    return made;
  }
  function next(values, other) {
    const { value, done } = values.next();
    if (done && other === undefined) throw new StopIteration("there is no more");
    return done ? other : value;
  }
  const KINDS = new Map([[str, "string"], [int, "number"], [bool, "boolean"]]);
  function bool(value) {
    return truth(value);
  }
  function isinstance(value, kind) {
    if (Array.isArray(kind)) return kind.some((one) => isinstance(value, one));
    if (kind === list || kind === tuple) return Array.isArray(value);
    if (kind === dict) return value instanceof Dict;
    if (kind === int) return isNumber(value);
    return KINDS.has(kind) ? typeof value === KINDS.get(kind) : value instanceof kind;
  }
  const tuple = list;
  function getattr(of, name, other) {
    if (of[name] === undefined) return other;
    return typeof of[name] === "function" ? of[name].bind(of) : of[name];
  }
  function assert(holds, where) {
    if (!holds) throw new AssertionError(`${where} doesn't hold`);
  }
  const named = (made, names) => Object.assign(made, { names });
  function cache(made) {
    const kept = new Map();
    return (...given) => {
      const key = keyOf(given);
      if (!kept.has(key)) kept.set(key, made(...given));
      return kept.get(key);
    };
  }
  function shared(kind, name, value) {
    kind[name] = value;
    kind.prototype[name] = value;
  }
  function enumeration(members) {
    const values = new Set(Object.values(members));
    const has = (value) => {
      if (!values.has(value)) throw new ValueError(`${value} is none of these`);
      return value;
    };
    return Object.assign(Object.create({ of: has, [Symbol.iterator]: () => values[Symbol.iterator]() }), members);
  }

  // Regular expressions.

  class Match {
    constructor(found) {
      this.found = found;
    }
    at(k) {
      return none(typeof k === "string" ? this.found.groups[k] : this.found[k]);
    }
    group(k = 0) {
      return this.at(k);
    }
    start() {
      return this.found.index;
    }
    end() {
      return this.found.index + this.found[0].length;
    }
  }
  class Pattern {
    constructor(text) {
      const source = text.replaceAll("(?P<", "(?<").replace(/\\([^\w\s\\^$.*+?()[\]{}|/-])/gu, "$1");
      [this.any, this.all] = ["gu", "yu"].map((flags) => new RegExp(source, flags));
      this.whole = new RegExp(`(?:${source})$`, "yu");
    }
    once(pattern, text) {
      pattern.lastIndex = 0;
      const found = pattern.exec(text);
      return found && new Match(found);
    }
    found(text) {
      this.any.lastIndex = 0;
      return [...text.matchAll(this.any)];
    }
    search(text) {
      return this.once(this.any, text);
    }
    match(text) {
      return this.once(this.all, text);
    }
    fullmatch(text) {
      return this.once(this.whole, text);
    }
    finditer(text) {
      return this.found(text).map((found) => new Match(found));
    }
    findall(text) {
      return this.found(text).map((found) => (found.length > 2 ? found.slice(1) : none(found[found.length - 1])));
    }
    split(text) {
      return text.split(this.any);
    }
    sub(now, text) {
      let [made, from] = ["", 0];
      for (const found of this.found(text)) {
        made += text.slice(from, found.index) + (typeof now === "string" ? now : now(new Match(found)));
        from = found.index + found[0].length;
      }
      return made + text.slice(from);
    }
  }
  const compile = cache((pattern) => (pattern instanceof Pattern ? pattern : new Pattern(pattern)));
  const re = { compile };
  for (const name of ["search", "match", "fullmatch", "finditer", "findall", "split"])
    re[name] = (pattern, text) => compile(pattern)[name](text);
  re.sub = (pattern, now, text) => compile(pattern).sub(now, text);

  // Python's modules that the tools use.

  const files = new Map();
  class Path {
    constructor(path) {
      this.path = String(path);
    }
    get name() {
      return this.path.split("/").at(-1);
    }
    get parent() {
      return new Path(this.path.split("/").slice(0, -1).join("/"));
    }
    resolve() {
      return this;
    }
    with_name(name) {
      return new Path(name);
    }
    read_text() {
      return files.get(this.name);
    }
  }
  class ThreadPoolExecutor {
    submit(way, ...given) {
      const value = way(...given);
      return { result: () => value };
    }
  }
  class IPv4Address {
    constructor(given) {
      this.packed = typeof given === "string" ? this.read(given) : given;
    }
    get version() {
      return 4;
    }
    read(text) {
      const parts = text.split(".");
      if (parts.length !== 4 || !parts.every((it) => /^(0|[1-9]\d{0,2})$/.test(it) && Number(it) < 256))
        throw new ValueError(`'${text}' isn't an IPv4 address such as 10.0.0.1`);
      return octets(parts.map(Number));
    }
    toString() {
      return [...this.packed].join(".");
    }
  }
  class IPv6Address extends IPv4Address {
    get version() {
      return 6;
    }
    read(text) {
      const [left, right, more] = text.split("::").map((it) => (it ? it.split(":") : []));
      const missing = 8 - left.length - (right?.length ?? 0), isCut = right !== undefined;
      const words = [...left, ...Array(Math.max(0, isCut ? missing : 0)).fill("0"), ...(right ?? [])];
      if (more || (isCut && missing < 1) || words.length !== 8 || !words.every((it) => /^[0-9a-fA-F]{1,4}$/.test(it)))
        throw new ValueError(`'${text}' isn't an IPv6 address such as 2001:db8::1`);
      return octets(words.flatMap((it) => [parseInt(it, 16) >> 8, parseInt(it, 16) & 255]));
    }
    // Leaves out the longest run of two or more zero words, or the first of several equally long ones.
    toString() {
      const words = range(8).map((k) => ((this.packed[2 * k] << 8) | this.packed[2 * k + 1]).toString(16));
      let [from, length] = [0, 1];
      for (let k = 0, run = 0; k < 8; k++) {
        run = words[k] === "0" ? run + 1 : 0;
        if (run > length) [from, length] = [k + 1 - run, run];
      }
      if (length < 2) return words.join(":");
      return `${words.slice(0, from).join(":")}::${words.slice(from + length).join(":")}`;
    }
  }
  const ip_address = (text) => new (text.includes(":") ? IPv6Address : IPv4Address)(text);
  // Packed numbers: `>` or `<`, then a letter for each, preceded by a count if there are several.
  const SIZES = { B: 1, H: 2, I: 4, i: 4, Q: 8, q: 8 };
  function layout(how) {
    const sizes = [...how.matchAll(/(\d*)([BHIiQq])/g)].flatMap(([, count, kind]) => Array(Number(count || 1)).fill(SIZES[kind]));
    return { sizes, isLittle: how.startsWith("<"), whole: sizes.reduce((sum, it) => sum + it, 0) };
  }
  const struct = {
    calcsize: (how) => layout(how).whole,
    pack(how, ...values) {
      const { sizes, isLittle } = layout(how), made = [];
      sizes.forEach((size, k) => {
        const digits = BigInt.asUintN(8 * size, BigInt(values[k])).toString(16).padStart(2 * size, "0");
        made.push(...(isLittle ? bytes.fromhex(digits).reverse() : bytes.fromhex(digits)));
      });
      return octets(made);
    },
    unpack_from(how, data, from = 0) {
      const { sizes, isLittle } = layout(how);
      return sizes.map((size) => int.from_bytes(data.slice(from, (from += size)), isLittle ? "little" : "big"));
    },
    unpack: (how, data) => struct.unpack_from(how, data),
  };
  // Returns the total length of the blocks that two strings have in common. Like difflib's SequenceMatcher, it picks
  // the longest block first, then searches on either side of it.
  function common(a, b) {
    let best = [0, 0, 0];
    for (let i = 0; i < a.length; i++)
      for (let j = 0; j < b.length; j++) {
        let size = 0;
        while (i + size < a.length && j + size < b.length && a[i + size] === b[j + size]) size++;
        if (size > best[2]) best = [i, j, size];
      }
    const [i, j, size] = best;
    return size ? size + common(a.slice(0, i), b.slice(0, j)) + common(a.slice(i + size), b.slice(j + size)) : 0;
  }
  function get_close_matches(word, names, most = 3, least = 0.6) {
    const scored = list(names).map((name) => [(2 * common(name, word)) / (name.length + word.length || 1), name]);
    const close = scored.filter(([score]) => score >= least).sort((a, b) => b[0] - a[0] || order(b[1], a[1]));
    return close.slice(0, most).map(([, name]) => name);
  }
  function* islice(values, most) {
    let count = 0;
    for (const it of each(values)) {
      if (count++ >= most) return;
      yield it;
    }
  }
  function bisect_left(values, it, how = {}) {
    const key = how.key ?? ((one) => one);
    let [low, high] = [0, values.length];
    while (low < high) {
      const middle = (low + high) >> 1;
      if (key(values[middle]) < it) low = middle + 1;
      else high = middle;
    }
    return low;
  }
  function bisect_right(values, it, how = {}) {
    const key = how.key ?? ((one) => one);
    let [low, high] = [0, values.length];
    while (low < high) {
      const middle = (low + high) >> 1;
      if (key(values[middle]) <= it) low = middle + 1;
      else high = middle;
    }
    return low;
  }
  // Returns a value for JSON.
  function plain(value) {
    if (Array.isArray(value)) return value.map(plain);
    if (value instanceof Dict) return Object.fromEntries(value.items().map(([key, it]) => [str(key), plain(it)]));
    if (typeof value === "bigint") return Number(value);
    return value === undefined ? null : value;
  }
  const operator = { ...signs, eq, ne: (a, b) => !eq(a, b), lt: (a, b) => order(a, b) < 0 };
  Object.assign(operator, { le: (a, b) => order(a, b) <= 0, gt: (a, b) => order(a, b) > 0, ge: (a, b) => order(a, b) >= 0 });
  // The expressions of reasons.txt, which Python parsed when the page was built.
  const ast = { trees: new Map() };
  const node = (name) => (ast[name] ??= { [name]: class {} }[name]);
  function tree(given) {
    if (Array.isArray(given)) return given.map(tree);
    if (!given || typeof given !== "object") return given;
    const { node: name, ...parts } = given, made = new (node(name))();
    for (const [key, value] of Object.entries(parts)) made[key] = tree(value);
    return made;
  }
  for (const name of ("Constant Name Subscript Attribute Call UnaryOp BoolOp BinOp Compare IfExp Not Invert And Or BitAnd BitOr " +
    "RShift LShift Add Sub Mult Mod FloorDiv Eq NotEq Lt LtE Gt GtE").split(" ")) node(name);
  ast.parse = (text) => ({ body: tree(ast.trees.get(text)) });
  const modules = {
    re, ast, operator,
    ipaddress: { IPv4Address, IPv6Address, ip_address },
    struct,
    json: { dumps: (value) => JSON.stringify(plain(value)) },
    pathlib: { Path },
    concurrent_futures: { ThreadPoolExecutor },
    threading: { Lock: () => null },
    functools: { cache },
    itertools: { islice },
    bisect: { bisect_left, bisect_right },
    array: { array: (_kind, values = []) => [...values] },
    difflib: { get_close_matches },
    os: {}, sys: {}, subprocess: {}, contextlib: {},
  };
  return {
    Exception, KeyError, TypeError, ValueError, AssertionError, UnicodeDecodeError, OSError, StopIteration,
    ...signs, pow, invert, within, at, put, slice, chosen, gathered, octets, each, truth, eq, contains, call, keywords, form,
    lt: (a, b) => order(a, b) < 0, le: (a, b) => order(a, b) <= 0,
    and: (a, b) => (truth(a) ? b() : a), or: (a, b) => (truth(a) ? a : b()),
    bound: boundOf, named, getattr, cache, shared, enumeration, assert, isinstance, plain, modules, files, dict, set, list, tuple,
    str, int, bool, bytes, sorted, zip, enumerate, map, filter, range, next, repr: JSON.stringify,
    len: (value) => (value instanceof Dict || value instanceof Group ? value.size : value.length),
    any: (values) => list(values).some(truth), all: (values) => list(values).every(truth),
    sum: (values) => list(values).reduce((sum, it) => add(sum, it), 0),
    min: (...given) => extreme(-1, given), max: (...given) => extreme(1, given),
    iter: (values) => values[Symbol.iterator](), reversed: (values) => list(values).reverse(),
    ord: (text) => text.codePointAt(0), chr: (code) => String.fromCodePoint(code), abs: Math.abs, frozenset: set,
    divmod: (a, b) => [floordiv(a, b), mod(a, b)],
    type: (value) => value.constructor, vars: (it) => new Dict(Object.entries(it)),
  };
})();
