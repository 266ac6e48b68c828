"use strict";
// The files, groups and drawings that this file holds.

const UNDRAWN = "This report has no sketch of it", SERVE = "naplps-pages report STORE --serve";

async function unpack(element) {
  const bytes = Uint8Array.from(atob(element.textContent), (letter) => letter.charCodeAt(0));
  const stream = new Blob([bytes]).stream().pipeThrough(new DecompressionStream("deflate"));
  return JSON.parse(await new Response(stream).text());
}

// Lines of a list, whose words were left out where they stood in the same place of the last line of their kind.
function lengthened(text) {
  const last = new Map();
  return text === "" ? [] : text.split("\n").map((line) => {
    const words = line.split(" "), before = last.get(words[0]) || [];
    const whole = words.map((word, at) => at && word === "" && at < before.length ? before[at] : word);
    last.set(words[0], whole);
    return whole.join(" ").replace(/\u00a0/g, " ");
  });
}

// Elements that are unpacked when they are needed, of which `most` are held at a time.
class Packed {
  constructor(elements, most) {
    Object.assign(this, {elements, most, held: new Map()});
  }

  get(number) {
    const found = this.held.get(number) || unpack(this.elements[number]);
    this.held.delete(number);
    this.held.set(number, found);
    if (this.held.size > this.most) this.held.delete(this.held.keys().next().value);
    return found;
  }
}

// A text as its words are compared: without accents, in small letters, with a blank before each word.
function folded(text) {
  const bare = text.normalize("NFD").replace(/\p{M}/gu, "").toLowerCase();
  return " " + (bare.match(/[\p{L}\p{N}]+/gu) || []).join(" ") + " ";
}

// What is looked for: words, each of which begins one of the text, and between quotes those that follow each other.
function wanted(text) {
  const parts = [];
  for (const [, phrase, word] of text.slice(0, 400).matchAll(/"([^"]*)"?|([^\s"]+)/g)) {
    const words = folded(phrase ?? word);
    if (words.trim()) parts.push(phrase === undefined ? words.slice(0, -1) : words);
  }
  return parts;
}

class Held {
  static async open() {
    return new Held(await unpack(document.getElementById("table")));
  }

  constructor(table) {
    this.table = table;
    this.columns = table.columns;
    this.size = this.columns.name.length;
    this.blocks = new Packed(document.querySelectorAll("script.block"), 64);
    this.playedBlocks = new Packed(document.querySelectorAll("script.played-block"), 4);
    this.texts = new Packed(document.querySelectorAll("script.texts"), 8);
    this.members = table.groups.map(() => []);
    this.columns.group.forEach((group, key) => group >= 0 && this.members[group].push(key));
    this.found = {};
  }

  name(key) {
    const folder = this.table.folders[this.columns.folder[key]], name = this.columns.name[key];
    if (folder.endsWith("!/")) return name ? folder.slice(0, -1) + name : folder.slice(0, -2);
    return folder ? folder + "/" + name : name;
  }

  file(key) {
    const at = (column) => this.columns[column][key], page = at("page");
    return {key, name: this.name(key), size: at("size"), answer: this.table.answers[at("answer")],
            entries: at("entries"), group: at("group") + 1, hash: page < 0 ? "" : this.table.hashes[page],
            says: page < 0 ? "" : this.table.says[page],
            kind: this.table.kinds[at("kind")], treated: at("cure") < 0 ? "" : this.table.cures[at("cure")]};
  }

  // The keys of the files that the words of the form leave, in their order.
  async hits(words) {
    const named = JSON.stringify(words);
    if (this.found.named === named) return this.found.keys;
    if (words.text) await this.readWords();
    const takes = this.conditions(words), keys = [];
    for (let key = 0; key < this.size; key++) {
      if (takes.every((each) => each(key))) keys.push(key);
    }
    if (words.order === "group") this.byGroup(keys);
    const ordered = words.pages ? this.blankLast(words.once ? this.once(keys) : keys) : keys;
    this.found = {named, keys: ordered};
    return ordered;
  }

  // Of the files that draw the same the first, or the first that isn't a readable copy.
  once(keys) {
    const {group, page} = this.columns, taken = new Map(), isCopy = (key) => isTreated(this.file(key));
    const drawing = (key) => group[key] < 0 ? "page " + page[key] : group[key];
    for (const key of [...keys].sort((one, other) => isCopy(one) - isCopy(other) || one - other)) {
      if (!taken.has(drawing(key))) taken.set(drawing(key), key);
    }
    return keys.filter((key) => taken.get(drawing(key)) === key);
  }

  // Those that draw nothing stand behind all others.
  blankLast(keys) {
    const blank = this.table.kinds.indexOf(BLANK), {kind} = this.columns;
    return [...keys.filter((key) => kind[key] !== blank), ...keys.filter((key) => kind[key] === blank)];
  }

  // Those of a group side by side, by their spellings; after them those that have no group.
  byGroup(keys) {
    const {group, spelling} = this.columns, last = this.table.groups.length;
    const rank = (key) => group[key] < 0 ? last : group[key];
    keys.sort((one, other) => rank(one) - rank(other) || spelling[one] - spelling[other] || one - other);
  }

  conditions({text, kind, answer, cure, folder, pages, others}) {
    const {columns, table} = this, some = [], group = /^group ([0-9]{1,9})$/i.exec(text);
    if (pages) some.push((key) => columns.page[key] >= 0);
    if (pages && !others && !kind) some.push((key) => isPage(this.file(key)));
    if (answer) {
      const number = table.answers.indexOf(answer);
      const numbers = new Set(table.answers.flatMap((each, at) => each === answer ? [at] : []));
      some.push(number < 0 ? () => false : (key) => numbers.has(columns.answer[key]));
    }
    if (kind) some.push((key) => table.kinds[columns.kind[key]] === kind);
    if (cure) some.push((key) => this.cure(key) === cure);
    if (folder) {
      const inside = table.folders.map((each) => each === folder || each.startsWith(folder + "/"));
      some.push((key) => inside[columns.folder[key]]);
    }
    if (group) some.push((key) => columns.group[key] + 1 === Number(group[1]));
    else if (text) some.push(this.hasText(text));
    return some;
  }

  // Whether a name has the text, or a page all its words.
  hasText(text) {
    const part = text.toLowerCase(), parts = wanted(text), of = this.columns.sketch;
    this.names ||= this.columns.name.map((_, key) => this.name(key).toLowerCase());
    const has = this.words.map((words) => parts.length > 0 && parts.every((each) => words.includes(each)));
    return (key) => this.names[key].includes(part) || (of[key] >= 0 && has[of[key]]);
  }

  // The words of all texts, as they are compared, once they are asked for.
  async readWords() {
    if (this.words) return;
    const words = [];
    for (const element of this.texts.elements) words.push(...(await unpack(element)).map(folded));
    this.words = words;
  }

  // What treatments come to, as the form names it.
  cure(key) {
    const cure = this.columns.cure[key];
    return cure < 0 ? "" : this.table.cures[cure] || "none";
  }

  async files({from, count, ...words}) {
    const keys = await this.hits(words);
    return {total: keys.length, files: keys.slice(from, from + count).map((key) => this.file(key))};
  }

  // The first file with a page of this hash, and its place among those that are found.
  async find({hash, ...words}) {
    const page = this.table.hashes.indexOf(hash.slice(0, 16).toLowerCase());
    const keys = await this.hits(words), of = this.columns.page;
    if (page < 0) return null;
    const position = keys.findIndex((key) => of[key] === page);
    return {key: position < 0 ? of.indexOf(page) : keys[position], position};
  }

  async groups({copies, from, count, names}) {
    const all = this.table.groups;
    const total = copies ? all.length : all.filter(([, spellings]) => spellings > 1).length;
    const some = all.slice(from, Math.min(from + count, total)).map((_, at) => this.group(from + at, names));
    return {total, groups: some};
  }

  group(number, names) {
    const [canonical, spellings, files, entries, length, copies] = this.table.groups[number];
    const of = this.columns.spelling, keys = this.members[number], some = new Map();
    const order = [...keys].sort((one, other) => of[one] - of[other] || one - other);
    for (const key of order.slice(0, names)) {
      const spelling = of[key];
      if (!some.has(spelling)) {
        const {size, treated} = this.file(key);
        some.set(spelling, {spelling, size, treated, files: []});
      }
      some.get(spelling).files.push({key, name: this.name(key)});
    }
    return {number: number + 1, canonical, spellings, files, copies, entries, length, key: order[0],
            members: [...some.values()]};
  }

  async details(key) {
    const cure = this.columns.cure[key], group = this.columns.group[key];
    const answer = this.columns.answer[key], texts = this.table.refusals;
    const refusal = texts[this.table.answers[answer]] || texts[this.table.numbers[answer]];
    return {...this.file(key), refusal: refusal || null, cure: cure < 0 ? null : this.table.cures[cure],
            equal: group < 0 ? null : this.group(group, 12), near: this.near(this.columns.page[key])};
  }

  // The files that are almost equal to a page.
  near(page) {
    return (this.table.near[page] || []).map(([key, told]) => ({key, name: this.name(key), told}));
  }

  // Of a file's drawing what the blocks hold, or why there is none.
  async block(key) {
    const number = this.columns.sketch[key], per = this.table.per;
    if (number < 0) return {at: -1, why: this.without(key)};
    return {at: number % per, held: await this.blocks.get(Math.floor(number / per))};
  }

  async thumbnail(key) {
    const {at, held, why} = await this.block(key), text = this.file(key).says;
    return at < 0 ? {sketch: "", text, why}
      : {sketch: held.sketch[at], text, why: held.why[at], entries: held.entries[at]};
  }

  async drawing(key) {
    const {at, held, why} = await this.block(key);
    if (at < 0) {
      const commands = why === UNDRAWN ? [`naplps-pages show ${quoted(this.name(key))} -o page.svg`, SERVE] : [];
      return {sketch: "", text: "", lines: [], counts: [], first: 0, entries: 0, commands,
              why: commands.length ? why + ". To see it:" : why};
    }
    const number = this.columns.sketch[key], per = this.table.texts;
    const text = (await this.texts.get(Math.floor(number / per)))[number % per];
    return {sketch: held.sketch[at], text, lines: lengthened(held.lines[at]), counts: held.counts[at],
            first: held.first[at], entries: held.entries[at], why: held.why[at]};
  }

  // What a player has of a page. (The sketch may be that of another spelling.)
  async played(key) {
    const number = this.table.played.indexOf(this.columns.page[key]), per = this.table.playedPer;
    if (number < 0) {
      const why = `This report can play ${counted(this.table.played.length, "page")}, and not this one. To play it:`;
      return {page: null, why, commands: [`naplps-pages show ${quoted(this.name(key))} -o page.html`, SERVE]};
    }
    return {page: (await this.playedBlocks.get(Math.floor(number / per)))[number % per], why: ""};
  }

  without(key) {
    const answered = this.table.numbers[this.columns.answer[key]] || this.columns.answer[key] === this.table.accepted;
    return answered ? UNDRAWN : "There is no answer to draw";
  }
}

const SOURCE = Held;
