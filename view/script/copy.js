// Buttons that copy.

const COPIED = 1200; // milliseconds for which a button says so

/** Puts a text on the clipboard; where the browser has none for a page of a file, by its own command of old. */
async function putOnClipboard(text) {
  try {
    await navigator.clipboard.writeText(text);
    return true;
  } catch {
    const area = Object.assign(document.createElement("textarea"), { value: text, className: "skip" });
    document.body.append(area);
    area.select();
    const isCopied = document.execCommand("copy");
    area.remove();
    list.focus({ preventScroll: true });
    return isCopied;
  }
}

/** A button that copies a text, which is made when it is wanted: a value, or else what the button says. */
function copyButton(what, textOf) {
  const label = what === "value" ? "copy" : what;
  const button = buttonNode("copy", async () => {
    const isCopied = await putOnClipboard(textOf());
    button.textContent = isCopied ? "copied" : "not copied";
    setTimeout(() => { button.textContent = label; }, COPIED);
  }, label);
  button.title = `Copy the ${what.replace(/^copy the /, "")}`;
  return button;
}
