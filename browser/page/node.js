// Elements of the document, made of names, properties and texts, and never of markup.

function node(tag, properties, ...children) {
  const it = document.createElement(tag);
  for (const [name, value] of Object.entries(properties)) {
    if (name in it) it[name] = value;
    else it.setAttribute(name, value);
  }
  it.append(...children);
  return it;
}

export { node };
