"use strict";
// The files, groups and drawings that the server has.

class Asked {
  static async open() {
    return new Asked();
  }

  async ask(what, words) {
    const plain = Object.entries(words).map(([name, value]) => (
      [name, typeof value === "boolean" ? String(Number(value)) : value]));
    const answer = await fetch(what + "?" + new URLSearchParams(plain));
    if (!answer.ok) throw new Error(await answer.text());
    return answer.json();
  }

  files(words) { return this.ask("files", words); }

  find(words) { return this.ask("find", words); }

  groups(words) { return this.ask("groups", words); }

  details(key) { return this.ask("details", {key}); }

  drawing(key) { return this.ask("drawing", {key}); }

  thumbnail(key) { return this.ask("thumbnail", {key}); }

  played(key) { return this.ask("played", {key}); }
}

const SOURCE = Asked;
