// Answers rows of test cases with the definitions, as Agda compiled them: see check.sh. The top of
// crates/getopts_vectors/src/main.rt describes the rows.
// usage: NODE_PATH=COMPILED node --stack-size=7000 run.js --run | --print ROWS..
//
// --run compares the answers in these files, and reports each that isn't what the definitions give.
// --print prints the rows that the definitions answer, with these answers. Both end by naming the
// others: calls for which there is no definition, and help texts that need the width of characters
// beyond ASCII.
"use strict";
const { readFileSync } = require("fs");
const load = name => require("jAgda." + name);

// ---- values of Agda. Here, a text is a string with a character for each byte.

// Lists whose `slice(1)` copies nothing: compiled code takes lists apart by `length`, `[0]` and
// `slice(1)`. This comes before the definitions, because some of them run when they are loaded. The
// function, with which literals are made, is missing in Agda's library.
class Cell {
  constructor(first, more) { this[0] = first; this.more = more; }
  slice() { return this.more; }
}
Cell.prototype.length = 1;
const NIL = { length: 0 };
load("Agda.Builtin.List").List = { "[]": NIL, "_∷_": first => more => new Cell(first, more) };
load("Agda.Builtin.Char").primCharToNat = char => BigInt(char.charCodeAt(0));

const D = Object.assign({}, ...[
  "Std", "Options", "Results", "Reader", "Matches", "Accessors", "Fail", "Usage", "UsageResults",
].map(load)), { HasArg, Occur, ParsingStyle } = load("Enums");

const list = (items, of = it => it) => items.reduceRight((more, it) => new Cell(of(it), more), NIL);
function array(cells, of = it => it) {
  const all = [];
  for (; cells.length; cells = cells.more) all.push(of(cells[0]));
  return all;
}
const bytes = text => list([...text], char => BigInt(char.charCodeAt(0)));
const text = cells => String.fromCharCode(...array(cells, Number));
// A value's constructor and its parts. A value calls the function for its constructor.
const CASES = new Proxy({}, { get: (_, name) => (...parts) => [name, ...parts] });
const open = value => (typeof value === "function" ? value : Object.values(value)[0])(CASES);
const option = (value, of = it => it) => open(value).slice(1).map(of)[0];
// A value without functions, of which equal ones are written alike.
function plain(value) {
  if (typeof value === "bigint") return String(value);
  if (typeof value !== "object" && typeof value !== "function" || value === null) return value;
  return "length" in value && typeof value === "object" ? array(value, plain) : open(value).map(plain);
}

// ---- answers: lists of fields

const optional = value => option(value, it => "=" + text(it)) ?? "-";
const title = name => name.replace(/(^|-)(.)/g, (_, dash, letter) => letter.toUpperCase());
const refused = fault => ["refused", title(open(fault)[0]), text(open(fault)[1])];
const accepted = matches => {
  const [, , free, start] = open(matches);
  return ["accepted", option(start, String) ?? "-", ...array(free, text)];
};
const given = it => {
  const [kind, first, value] = open(it);
  return kind === "option" ? [first, optional(value)] : ["=" + text(first)];
};
const result = (value, of) => (([ok, it]) => ok === "Ok" ? of(it) : refused(it))(open(value));

// What a loop over a line's words gives, and its error or nothing.
function loop(options, words) {
  const trace = D.trace(options)(D["of-Left"].mk(NIL)(words)(load("Base").Option.None));
  return [array(D["given-in"](trace)), option(D["fault-in"](trace))];
}

// The kind of argument and the occurrences of the option that each call declares.
const CALLS = {
  optflag: ["no", "optional"], optflagmulti: ["no", "multi"], optflagopt: ["maybe", "optional"],
  optmulti: ["yes", "multi"], optopt: ["yes", "optional"], reqopt: ["yes", "req"],
};
const uncounted = D["parse-ignoring-counts-result"];
const PARSES = {
  words: D["parse-result"], parse_words: D["parse-result"], ignoring_counts: uncounted,
  check_counts: options => words => {
    const [ok, matches] = open(uncounted(options)(words));
    return ok === "Ok" ? D["counted-result"](matches) : uncounted(options)(words);
  },
};
const canonical = (options, words) => result(D["canonical-result"](options)(words),
  line => option(line, it => ["line", ...array(it, text)]) ?? ["none"]);
const inOrder = (options, words) => {
  const same = (one, other) => JSON.stringify(plain(one)) === JSON.stringify(plain(other));
  const [all, fault] = loop(options, words), [ok, order] = open(D["order-or-error"](options)(words));
  if (ok === "Ok" ? fault || !same(list(all), order) : !fault || !same(fault, order)) return ["a loop differs"];
  return result(D["parse-in-order-result"](options)(words), order => ["order", ...array(order, given).flat()]);
};
const LINES = { canonical, canonical_words: canonical, parse_in_order: inOrder };

// Help texts, for characters of one column each.
const width = () => characters => BigInt(array(characters).length);
const usageRows = options => array(D["usage-rows-result"](width)(options), text);
const HELP = {
  short: (options, program) => [text(D["short-usage-text"](options)(bytes(program)))],
  usage: (options, brief) => [text(D["usage-result"](width)(options)(bytes(brief)))],
  usage_in: (options, columns, brief) => [text(D["usage-in-result"](width)(BigInt(columns))(options)(bytes(brief)))],
  usage_rows: options => usageRows(options),
  rows: options => [usageRows(options).length + " rows", ...usageRows(options)],
  wrap: (options, limit, desc) => array(D["description-rows"](width)(BigInt(limit))(bytes(desc)), text),
};

// What accessors return: lines after the row's word and name, for the name's occurrences.
const values = own => array(D["values-of"](own), text), positions = own => array(D["positions-of"](own));
const pairs = own => array(D["pairs-of"](own), it => [open(it)[1], text(open(it)[2])]);
const first = own => optional(D["first-value"](own)), count = own => D.length(own);
const or = (own, other) => optional(D["first-value-or"](own)(bytes(other)));
const OF_NAME = {
  opt_present: own => [[count(own) > 0n]], opt_count: own => [[count(own)]], opt_str: own => [[first(own)]],
  opt_strs: own => [values(own)], opt_strs_pos: own => [pairs(own).flat()], opt_positions: own => [positions(own)],
  opt_default: (own, other) => [[other, or(own, other)]],
  positions: own => [positions(own), ["pairs", ...pairs(own).flat()]],
  option: (own, other) => [[count(own) > 0n ? "present" : "absent", count(own), first(own), or(own, other)],
    ["strs", ...values(own)], ["pairs", ...pairs(own).map(it => it[1])]],
};
const OF_MATCHES = {
  any: (groups, ...names) => {
    const present = names.some(name => D["is-present"](groups)(bytes(name)));
    const among = optional(D["first-value-among"](groups)(list(names, bytes)));
    const defined = names.every(name => option(D["opt-place"](groups)(bytes(name))) !== undefined);
    return [present, ...defined ? [present, among, among] : ["undefined"]];
  },
  occurrences_at: (groups, place, nth) => {
    const all = array(D["occurrences-of-group"](groups)(BigInt(place)), it => [open(it)[1], optional(open(it)[2])]);
    return [place, nth, all.length, ...all[nth] ?? ["none"]];
  },
  opt_place: (groups, name) => [name, option(D["opt-place"](groups)(bytes(name))) ?? "-"],
  opt_defined: (groups, name) => [name, option(D["opt-place"](groups)(bytes(name))) !== undefined],
};

class Session {
  constructor(kept) {
    Object.assign(this, { kept, groups: [], stops: false, longOnly: false, matches: null, fault: null });
  }

  get options() {
    const made = this.groups.map(([short, long, desc, hint, kind, occur]) => D["group-of"](bytes(short))(bytes(long))
      (bytes(desc))(bytes(hint))(HasArg[title(kind)])(Occur[title(occur)]));
    return D["of-Declared"].mk(list(made))(ParsingStyle[this.stops ? "StopAtFirstFree" : "FloatingFrees"])(this.longOnly);
  }

  // What `==` compares.
  get compared() {
    const { groups, stops, longOnly, matches, fault } = this;
    return { options: JSON.stringify([groups, stops, longOnly]), answers: JSON.stringify([matches, fault].map(plain)) };
  }

  // The lines of the answer to a row; null if the definitions don't determine it.
  answer(word, fields) {
    if (word === "case" || word === "anew") Object.assign(this, new Session(word === "anew" ? this.kept : null));
    else if (word === "style") this.stops = fields[0] === "stop";
    else if (word === "mode") this.longOnly = fields[0] === "long-only";
    else if (word === "opt" || word === "add_group") this.groups.push(fields);
    else if (word in CALLS) this.groups.push([...fields.slice(0, 3), fields[3] ?? "", ...CALLS[word]]);
    else if (word === "keep") this.kept = this.compared;
    else return this.asked(word, fields);
    return [];
  }

  asked(word, fields) {
    if (word === "same") return [[word, fields[0], this.kept[fields[0]] === this.compared[fields[0]]]];
    if (word === "error" && fields.length) return null;
    if (word === "error") return [[word, this.fault ? text(D["fault-text"](this.fault)) : "nothing"]];
    if (word in LINES) return [[word, ...LINES[word](this.options, list(fields, bytes))]];
    if (word in PARSES) {
      const read = PARSES[word](this.options)(list(fields, bytes)), [ok, it] = open(read);
      Object.assign(this, ok === "Ok" ? { matches: it, fault: null } : { matches: null, fault: it });
      return [result(read, accepted)];
    }
    if (word in HELP) {
      const texts = [...this.groups.flat(), ...fields].join(" ");
      const isMeasured = /^[\t-\r -~]*$/.test(texts) && !texts.includes("{Z}");
      return isMeasured || word === "short" ? [[word, ...HELP[word](this.options, ...fields)]] : null;
    }
    if (word === "clear" && this.fault) return [refused(this.fault)];
    const groups = this.matches && open(this.matches)[1];
    if (word in OF_MATCHES) return [[word, ...groups ? OF_MATCHES[word](groups, ...fields) : ["nothing"]]];
    if (word === "clear") {
      if (!groups) return [[word, "nothing"]];
      this.matches = D["of-Matched"].mk(groups)(NIL)(open(this.matches)[3]);
      return [accepted(this.matches)];
    }
    if (!(word in OF_NAME)) return null;
    if (!groups) return [[word, "nothing"]];
    const name = bytes(fields[0]), isDefined = option(D["opt-place"](groups)(name)) !== undefined;
    if (!isDefined) return [[word, fields[0], "undefined"]];
    const [line, ...others] = OF_NAME[word](D["occurrences-of-name"](groups)(name), fields[1]);
    return [[word, fields[0], ...line], ...others];
  }
}

// ---- files

const ESCAPES = { "\\": "\\\\", "\t": "\\t", "\n": "\\n", "\r": "\\r" };
const written = fields => fields.map(it => String(it).replace(/[\\\t\n\r]/g, char => ESCAPES[char])).join("\t");
const CHARACTERS = Object.fromEntries(Object.entries(ESCAPES).map(([char, escape]) => [escape, char]));
const fieldsOf = row => row.split("\t").map(it => it.replace(/\\./g, escape => CHARACTERS[escape]));

// The rows of a file with their stored answers, up to cases in short form.
function rowsOf(file) {
  const rows = [];
  for (const line of readFileSync(file, "latin1").split("\n")) {
    if (/^[*!{}]/.test(line)) break;
    const last = rows.at(-1), more = line.replace(/^(> |\| ?)/, "");
    if (line[0] === ">") last.stored.push(more);
    else if (line[0] === "|" && last.stored.length) last.stored.push(last.stored.pop() + more + "\\n");
    else if (line[0] === "|") last.row += more + "\\n";
    else if (line && line[0] !== "#") rows.push({ row: line, stored: [] });
  }
  return rows;
}

const write = text => process.stdout.write(text, "latin1");
process.stdout.on("error", () => process.exit()); // as `head` ends a pipe
const [mode, ...files] = process.argv.slice(2), found = { right: 0, wrong: 0 }, others = {};
for (const file of files) {
  const session = new Session();
  for (const { row, stored } of rowsOf(file)) {
    const [word, ...fields] = fieldsOf(row);
    let answer;
    try {
      answer = session.answer(word, fields)?.map(written);
    } catch (error) {
      console.error(`run.js: ${file}: can't answer ${row.slice(0, 100)} (${error.message})`);
      process.exit(2);
    }
    if (!answer) others[word] = (others[word] ?? 0) + 1;
    else if (mode === "--print") write([row, ...answer.map(it => "> " + it), ""].join("\n"));
    else if (answer.join("\n") === stored.join("\n")) found.right += stored.length;
    else {
      found.wrong += 1;
      write(`${file}: ${row}\n  stored:  ${stored.join(" / ")}\n  defined: ${answer.join(" / ")}\n`);
    }
  }
}
const named = Object.entries(others).map(([word, count]) => `${count} ${word}`).join(", ");
if (mode === "--run")
  console.log(`${found.right} lines of answers are what the definitions give, ${found.wrong} answers differ`);
console.log(`${mode === "--run" ? "" : "# "}not answered: ${named || "nothing"}`);
process.exitCode = found.wrong ? 1 : 0;
