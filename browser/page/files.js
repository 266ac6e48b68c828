// The files that were dropped or chosen, with those in folders.

// The most files that are taken at once, and the most bytes of one.
const MOST_FILES = 20000, MOST_FILE_BYTES = 1 << 24;
// The most files that are read ahead, and the most bytes of them.
const READ_AHEAD = 32, MOST_AHEAD = 1 << 25;

const entryFile = (entry) => new Promise((done, fail) => { entry.file(done, fail); });
const someEntries = (reader) => new Promise((done, fail) => { reader.readEntries(done, fail); });
// What stands for a file or a folder that can't be read.
const unreadable = (error) => ({ size: 0, arrayBuffer: () => Promise.reject(error) });

// Takes a file, or those in a folder; of too many it takes one more than are read, which tells of that.
async function walkEntry(entry, found) {
  if (found.length > MOST_FILES) return;
  const name = entry.fullPath.replace(/^\//, "");
  try {
    if (entry.isFile) found.push([name, await entryFile(entry)]);
    else await walkFolder(entry.createReader(), found);
  } catch (error) {
    found.push([name, unreadable(error)]);
  }
}

// (a reader gives some hundred at once, and nothing at the end)
async function walkFolder(reader, found) {
  for (let some = await someEntries(reader); some.length; some = await someEntries(reader)) {
    for (const each of some) await walkEntry(each, found);
  }
}

// The same by handles: Chromium gives a page of a disk nothing by entries.
async function walkHandle(handle, path, found) {
  if (found.length > MOST_FILES) return;
  const name = path + handle.name;
  try {
    if (handle.kind === "file") found.push([name, await handle.getFile()]);
    else for await (const each of handle.values()) await walkHandle(each, `${name}/`, found);
  } catch (error) {
    found.push([name, unreadable(error)]);
  }
}

// What was dropped: names and files, in the order of the names; and whether handles gave some of them, which leave out
// names that Windows can't have. (What an item is has to be asked at once.)
async function droppedFiles(transfer) {
  const items = [...transfer.items].filter((item) => item.kind === "file").map((item) => ({
    file: item.getAsFile(), entry: item.webkitGetAsEntry?.(),
    handle: location.protocol === "file:" ? item.getAsFileSystemHandle?.().catch(() => null) : null }));
  const files = [];
  let isPartial = false;
  for (const { file, entry, handle } of items) {
    const folder = entry?.isDirectory && await handle;
    if (folder) {
      isPartial = true;
      await walkHandle(folder, "", files);
    } else if (entry?.isDirectory) await walkEntry(entry, files);
    else if (file) files.push([file.name, file]);
  }
  return { files: files.sort(([a], [b]) => (a < b ? -1 : 1)), isPartial };
}

// The bytes of a file, or why there are none.
async function bytesOfFile(file) {
  if (file.size > MOST_FILE_BYTES) return { told: "not read: it is larger than 16 MiB" };
  try {
    return { bytes: new Uint8Array(await file.arrayBuffer()) };
  } catch (error) {
    return { told: `not read: ${error.message}` };
  }
}

// Reads files in their order, some of them ahead, since browsers read one after another slowly.
async function* readFiles(files) {
  const ahead = [], sizes = files.map(([, file]) => (file.size > MOST_FILE_BYTES ? 0 : file.size));
  let next = 0, size = 0;
  for (const [at, [name, file]] of files.entries()) {
    while (next < files.length && (next === at || (ahead.length < READ_AHEAD && size + sizes[next] <= MOST_AHEAD))) {
      size += sizes[next];
      ahead.push(bytesOfFile(files[next++][1]));
    }
    yield { name, file, ...await ahead.shift() };
    size -= sizes[at];
  }
}

const chosenFiles = (files) => [...files].map((file) => [file.webkitRelativePath || file.name, file]);

export { MOST_FILES, chosenFiles, droppedFiles, readFiles };
