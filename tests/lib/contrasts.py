"""Texts of a page in a browser that can hardly be read, by the contrast of their colours."""

# What WCAG 2 asks of texts (level AA).
LEAST = 4.5
FAINT = """
((least) => {
  const parts = (colour) => (([red, green, blue, alpha = 1]) => ({rgb: [red, green, blue], alpha}))(
    colour.match(/[0-9.]+/g).map(Number));
  const over = (front, back) => front.rgb.map((each, at) => each * front.alpha + back[at] * (1 - front.alpha));
  const behind = (element) => {
    if (!element) return [255, 255, 255];
    const colour = parts(getComputedStyle(element).backgroundColor);
    return colour.alpha === 1 ? colour.rgb : over(colour, behind(element.parentElement));
  };
  const light = (rgb) => rgb.map((each) => each / 255).map((each) => each <= 0.03928 ? each / 12.92
    : ((each + 0.055) / 1.055) ** 2.4).reduce((sum, each, at) => sum + each * [0.2126, 0.7152, 0.0722][at], 0);
  const contrast = (element) => {
    const back = behind(element), front = over(parts(getComputedStyle(element).color), back);
    const [low, high] = [light(front), light(back)].sort((one, other) => one - other);
    return (high + 0.05) / (low + 0.05);
  };
  const isText = (element) => [...element.childNodes].some((each) => each.nodeType === 3 && each.data.trim())
    && element.checkVisibility() && !element.closest(":disabled, .unseen, script, style, noscript");
  return [...document.querySelectorAll("body, body *")].filter(isText).filter((each) => contrast(each) < least)
    .map((each) => `${each.tagName} ${each.className}: ${each.textContent.trim().slice(0, 40)}: `
      + contrast(each).toFixed(2));
})(@LEAST@)
""".replace("@LEAST@", str(LEAST)).strip()
