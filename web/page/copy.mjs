// What is copied to the clipboard, and that it was.
import { button } from "./shown.mjs";

const TOLD = 1500;

// Copies by a selection, where the page may not write to the clipboard.
function copySelected(text) {
  const field = document.createElement("textarea"), focused = document.activeElement;
  field.value = text;
  document.body.append(field);
  field.select();
  const isDone = document.execCommand("copy");
  field.remove();
  focused?.focus();
  return isDone;
}

async function copy(text) {
  try {
    await navigator.clipboard.writeText(text);
    return true;
  } catch {
    return copySelected(text);
  }
}

// Copies a text, and says so on the button for a while, and to a screen reader.
async function copyBy(made, text) {
  const said = document.getElementById("said");
  made.dataset.label ??= made.textContent;
  made.textContent = said.textContent = await copy(text) ? "Copied" : "This browser doesn’t allow copying";
  setTimeout(() => {
    made.textContent = made.dataset.label;
    said.textContent = "";
  }, TOLD);
}

// A button that copies what a text is when it is pressed.
const copyButton = (label, textOf) => {
  const made = button(label, () => copyBy(made, textOf()));
  return made;
};

export { copyBy, copyButton };
