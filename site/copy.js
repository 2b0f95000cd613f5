"use strict";
// A button that copies the ABC of a page.
(() => {
    const text = document.querySelector("pre code");
    const files = document.querySelector(".files");
    if (!text || !files) return;
    const button = document.createElement("button");
    const item = document.createElement("li");
    button.type = "button";
    button.textContent = "Copy ABC";
    item.setAttribute("aria-live", "polite");
    item.append(button);
    files.append(item);

    function select() {
        const range = document.createRange();
        range.selectNodeContents(text);
        const selection = getSelection();
        selection.removeAllRanges();
        selection.addRange(range);
    }

    button.addEventListener("click", async () => {
        select();
        let copied = false;
        try {
            await navigator.clipboard.writeText(text.textContent);
            copied = true;
        } catch {
            copied = document.execCommand("copy");
        }
        button.textContent = copied ? "Copied" : "It is selected: copy it by your keys";
    });
})();
