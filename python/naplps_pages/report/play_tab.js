
// A page under two tabs: as the sketch shows it, and as it came down the line.
class PlayTab {
  // `sketch` is the element with the sketch; `ask` gives what a player has of the page, or why it has nothing.
  constructor(sketch, ask) {
    Object.assign(this, {sketch, ask, player: null});
    this.box = make("div", {hidden: true});
    const tab = (id, word, isPlayed) => make("button", {type: "button", id, "aria-pressed": !isPlayed,
      onclick: doing(() => this.show(isPlayed))}, word);
    this.tabs = [tab("as-sketch", "Sketch", false), tab("as-played", "As it came down the line", true)];
    this.whole = make("div", {}, make("div", {className: "tabs", role: "group", "aria-label": "how the page is shown"},
      ...this.tabs), sketch, this.box);
  }

  async show(isPlayed) {
    this.tabs.forEach((tab, at) => tab.setAttribute("aria-pressed", String((at === 1) === isPlayed)));
    this.sketch.hidden = isPlayed;
    this.box.hidden = !isPlayed;
    if (this.player) {
      this.player.setPlaying(false);
      this.player.refresh();
    } else if (isPlayed) {
      await this.begin();
    }
  }

  async begin() {
    const {page, why, commands} = await this.ask();
    if (this.player) return;
    if (page) this.player = new Player(this.box, page);
    else this.box.replaceChildren(instead(why, ...(commands || [])));
  }
}
