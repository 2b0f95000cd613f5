"use strict";
// The search of the first page: reads its fields, and lists what is found.
(() => {
    const FEW = 100;
    const part = id => document.getElementById(id);
    const tunes = tunesFind.opened(tunesIndex);
    const modes = ["", "dor", "phr", "lyd", "mix", "m", "loc"];
    const signatures = ["Cb", "Gb", "Db", "Ab", "Eb", "Bb", "F", "C", "G", "D", "A", "E", "B", "F#",
                        "C#"];

    // Control characters are shown as on the other pages.
    const shown = text => text.replace(/[\x00-\x1f\x7f-\x9f]/g, "\ufffd");
    const keyText = scale => scale && scale[0] + scale[1].trim() + modes[Number(scale[2])];
    const keyLabel = scale => scale
        && scale[0] + {" ": "", "#": "♯", b: "♭"}[scale[1]] + modes[Number(scale[2])];

    function add(to, name, text, attributes = {}) {
        const element = document.createElement(name);
        element.textContent = text;
        for (const [key, value] of Object.entries(attributes)) element.setAttribute(key, value);
        to.append(element);
        return element;
    }

    // WHAT IS ASKED

    function sought() {
        const words = part("title").value, asked = {};
        if (words.trim() !== "") {
            if (part("where").value === "title") asked.title = words;
            else asked.within = words.split(/[ \t]+/).filter(word => word !== "");
        }
        if (part("rhythm").value !== "") asked.rhythm = part("rhythm").value;
        if (part("key").value.trim() !== "") asked.key = part("key").value;
        if (part("notes").value.trim() !== "") {
            asked.notes = part("notes").value;
            if (part("in").value !== "") asked.in = part("in").value;
        }
        return asked;
    }

    function whyNothing(asked) {
        if (asked.key !== undefined && tunesFind.find(tunes, {key: asked.key}) === null) {
            return "No key is written so: write G, Edor, Bbm or F#mix";
        }
        return "Two notes at least are asked for, as in GA";
    }

    // WHAT IS FOUND

    function list(places) {
        const results = part("results");
        results.textContent = "";
        for (const place of places) {
            const item = add(results, "li", "");
            const number = tunes.numbers[place];
            add(item, "a", shown(tunes.titles[place][0] ?? `Tune ${number}`),
                {href: `tune/${number}.html`, "data-number": number});
            const kind = [shown(tunes.rhythms[tunes.ofRhythm[place]].replace(/^\n/, "")),
                          keyLabel(tunes.scales[tunes.ofScale[place]])];
            item.append(" ");
            add(item, "small", kind.filter(word => word !== "").join(", "));
        }
    }

    function search() {
        const asked = sought();
        const nothing = Object.keys(asked).length === 0;
        const places = nothing ? [] : tunesFind.find(tunes, asked);
        part("found").hidden = nothing;
        part("told").textContent = places === null ? whyNothing(asked)
            : places.length === 0 ? "No tune is found"
            : places.length === 1 ? "1 tune is found" : `${places.length} tunes are found`;
        part("all").hidden = !places || places.length <= FEW;
        part("all").onclick = () => {
            part("all").hidden = true;
            list(places);
        };
        list((places ?? []).slice(0, FEW));
    }

    // THE STAVE

    const SVG = "http://www.w3.org/2000/svg";
    const NOTES = ["D", "E", "F", "G", "A", "B", "c", "d", "e", "f", "g"];
    const SIGNS = [["♯", "^", "Sharp before the next note"],
                   ["♭", "_", "Flat before the next note"],
                   ["♮", "=", "Natural before the next note"], ["|", "|", "Bar"]];
    const SPACE = 8, BOTTOM = 56;

    function draw(to, name, attributes) {
        const element = document.createElementNS(SVG, name);
        for (const [key, value] of Object.entries(attributes)) element.setAttribute(key, value);
        to.append(element);
        return element;
    }

    // A note of the stave, whose lines the style sheet draws. E stands on the lowest one.
    function drawNote(to, place) {
        const picture = draw(to, "svg", {viewBox: "0 0 24 72", "aria-hidden": "true",
                                         preserveAspectRatio: "none"});
        const y = BOTTOM - (place - 1) * SPACE / 2;
        draw(picture, "ellipse", {cx: 12, cy: y, rx: 5, ry: 3.6,
                                  transform: `rotate(-20 12 ${y})`});
    }

    function button(to, text, label, act) {
        const made = add(to, "button", text, {type: "button", "aria-label": label});
        made.addEventListener("click", act);
        return made;
    }

    function write(text) {
        part("notes").value += text;
        search();
    }

    function stave() {
        const notes = add(part("stave"), "div", "", {class: "notes"});
        NOTES.forEach((note, place) => {
            const made = button(notes, "", `Note ${note}`, () => write(note));
            drawNote(made, place);
            add(made, "span", note, {"aria-hidden": "true"});
        });
        const signs = add(part("stave"), "div", "", {class: "signs"});
        for (const [text, sign, label] of SIGNS) button(signs, text, label, () => write(sign));
        button(signs, "⌫", "Take the last one away", () => {
            part("notes").value = part("notes").value.slice(0, -1);
            search();
        });
    }

    // THE PAGE

    for (const rhythm of tunes.rhythms) {
        if (rhythm === "" || rhythm[0] === "\n") continue;
        add(part("rhythms"), "option", "", {value: rhythm});
    }
    for (const scale of tunes.scales) {
        if (scale) add(part("keys"), "option", "", {value: keyText(scale)});
    }
    for (const key of signatures) {
        add(part("in"), "option", key.replace("#", "♯").replace(/(.)b/, "$1♭"), {value: key});
    }
    stave();
    // A telephone writes no capital by itself: it would be a lower note.
    part("notes").autocapitalize = "off";
    part("search").hidden = false;
    part("search").addEventListener("input", search);
    part("search").addEventListener("submit", event => event.preventDefault());
    search();
})();
