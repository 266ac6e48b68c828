
// Begins: takes the page that this file has.

async function unpacked(element) {
  const bytes = Uint8Array.from(atob(element.textContent), (letter) => letter.charCodeAt(0));
  const stream = new Blob([bytes]).stream().pipeThrough(new DecompressionStream("deflate"));
  return JSON.parse(await new Response(stream).text());
}

let player;

(async () => {
  player = new Player(document.getElementById("player"), await unpacked(document.getElementById("page")));
  player.box.focus({preventScroll: true});  // (its keys are there from the start)
  document.body.dataset.ready = "yes";
})().catch((error) => {
  document.getElementById("fault").textContent = "The page couldn't be shown: " + (error.message || error);
  document.getElementById("fault").hidden = false;
  document.body.dataset.fault = String(error.message || error);
});
