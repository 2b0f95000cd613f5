"use strict";
// Finds tunes in the index of tunes.js as `tunes-book find` does in the archive. What titles, keys
// and openings are is told by docs/ABC-PROFILE.md of tunes; each name here is a word of it. Texts
// are read letter by letter there by bytes: only letters of ASCII mean something in keys and notes,
// so that is the same.
const tunesFind = (() => {
    // TITLES

    // Letters apart from their marks, without these, and in one case (default case folding).
    function folded(text) {
        if (/^[\x00-\x7f]*$/.test(text)) return text.toLowerCase();
        const letters = text.normalize("NFD").replace(/\p{M}/gu, "");
        let result = "";
        for (const letter of letters) {
            result += letter === "ı" ? letter
                : letter.toLowerCase().toUpperCase().toLowerCase().replace(/ς/g, "σ");
        }
        return result;
    }

    function smallLetters(text) {
        return text.replace(/[A-Z]+/g, letters => letters.toLowerCase());
    }

    function trimmed(text) {
        return text.replace(/^[ \t]+/, "").replace(/[ \t]+$/, "");
    }

    function sortingTitle(text) {
        const title = trimmed(text);
        const article = /^(?:the|an|a)[ \t]+(.+)$/is.exec(title)
            || /^(.*[^ \t])[ \t]*,[ \t]+(?:the|an|a)$/is.exec(title);
        return smallLetters(article ? article[1] : title);
    }

    // The bytes of a text in UTF-8, each as the letter of Latin-1 that has its number.
    function bytesOf(text) {
        return String.fromCharCode(...new TextEncoder().encode(text));
    }

    // KEYS

    const SHARPS = "FCGDAEB", FLATS = "BEADGCF", EXPLICIT = 7;
    const MODES = {maj: 0, ion: 0, dor: 1, phr: 2, lyd: 3, mix: 4, min: 5, aeo: 5, loc: 6,
                   exp: EXPLICIT};
    const SHORT_MODES = {"": 0, m: 5, M: 5};
    const SHARPS_OF_SIGN = {"": 0, "#": 7, b: -7};
    const SHARPS_OF_MODE = [0, -2, -4, 1, -1, -3, -5];
    const ACCIDENTALS = {__: -2, _: -1, "=": 0, "^": 1, "^^": 2};

    function modeOf(word) {
        if (Object.hasOwn(SHORT_MODES, word)) return SHORT_MODES[word];
        const front = smallLetters(word.slice(0, 3));
        return Object.hasOwn(MODES, front) ? MODES[front] : null;
    }

    // A key text as it is read: its scale, or nothing, and how it alters each letter.
    function keyOf(keyText) {
        const key = {scale: "", signature: {}};
        const text = trimmed(keyText).replace(/\t/g, " ");
        const first = text.split(" ", 1)[0];
        let words = text.slice(first.length + 1);
        if (first === "HP" || first === "Hp") {
            if (first === "Hp") key.signature = {F: 1, C: 1};
            return key;
        }
        if (first !== "" && smallLetters(first) !== "none") words = readScale(key, text);
        for (const word of words.split(" ")) {
            if (!/^(?:(?:\^\^?|__?|=)[A-Ga-g])+$/.test(word)) continue;
            for (const [, sign, letter] of word.matchAll(/(\^\^?|__?|=)([A-Ga-g])/g)) {
                key.signature[letter.toUpperCase()] = ACCIDENTALS[sign];
            }
        }
        return key;
    }

    // Reads a tonic and a mode, and gives the words behind them; of no key there are none.
    function readScale(key, text) {
        const tonic = /^([A-G])([#b]?)(?![^ \tA-Za-z^_=])/.exec(text);
        if (!tonic) return "";
        const behind = text.slice(tonic[0].length);
        const [found, blanks, word] = /^([ \t]*)([A-Za-z]*)/.exec(behind);
        let mode = modeOf(word), words = behind.slice(found.length);
        if (mode === null || (word && words.startsWith("="))) {
            if (!blanks) return "";
            mode = 0;
            words = behind;
        }
        return mode === EXPLICIT || setScale(key, tonic, mode) ? words : "";
    }

    // Whether this scale has a signature, which it then sets.
    function setScale(key, [, letter, sign], mode) {
        const sharps = SHARPS.indexOf(letter) - 1 + SHARPS_OF_SIGN[sign] + SHARPS_OF_MODE[mode];
        if (sharps < -7 || sharps > 7) return false;
        key.scale = letter + (sign || " ") + mode;
        const altered = sharps > 0 ? SHARPS.slice(0, sharps) : FLATS.slice(0, -sharps);
        for (const each of altered) key.signature[each] = sharps > 0 ? 1 : -1;
        return true;
    }

    // NOTES

    const SEMITONES = {C: 0, D: 2, E: 4, F: 5, G: 7, A: 9, B: 11};
    const ITEM = new RegExp([
        '"[^"]*"', "![^!]*!", "\\+[^+]*\\+", "\\{[^}]*\\}",
        "\\[(?<field>[A-Za-z]):(?<value>[^\\]]*)\\]", "\\[(?<chord>[^\\][|0-9][^\\][|]*)\\]",
        "\\([0-9]+(?::[0-9]*(?::[0-9]*)?)?",
        "(?<accidental>\\^\\^?|=|__?|)(?<letter>[A-Ga-g])(?<octaves>[,']*)", "(?<bar>[|:])", ".",
    ].join("|"), "gs");

    // A text up to the first percent sign that no backslash stands directly before.
    function uncommented(text) {
        const comment = /(^|[^\\])%/s.exec(text);
        return comment ? text.slice(0, comment.index + comment[1].length) : text;
    }

    function count(text, letter) {
        return text.split(letter).length - 1;
    }

    // The pitches of the notes that count, of a line of music in C.
    function pitchesOf(music, state = {signature: {}, inBar: {}}) {
        const pitches = [];
        for (const {groups: item} of music.matchAll(ITEM)) {
            if (item.letter) pitches.push(pitchOf(item, state));
            else if (item.bar) state.inBar = {};
            else if (item.chord) pitches.push(...pitchesOf(item.chord, state).slice(0, 1));
            else if (item.field === "K") state.signature = keyOf(item.value).signature;
        }
        return pitches;
    }

    function pitchOf(note, state) {
        const letter = note.letter.toUpperCase();
        const octave = (letter === note.letter ? 0 : 1) + count(note.octaves, "'")
            - count(note.octaves, ",");
        const name = letter + octave;
        if (note.accidental) state.inBar[name] = ACCIDENTALS[note.accidental];
        return SEMITONES[letter] + 12 * octave
            + (state.inBar[name] ?? state.signature[letter] ?? 0);
    }

    // The steps between the first so many notes that count.
    function stepsOf(line, most) {
        const pitches = pitchesOf(uncommented(line)).slice(0, most);
        return pitches.slice(1).map((pitch, place) => pitch - pitches[place]);
    }

    // THE INDEX

    // The letters of steps from -45 to 44, as tunes-site writes them.
    const LETTERS = Array.from({length: 93}, (_, place) => String.fromCharCode(33 + place))
        .filter(letter => !'"\\~'.includes(letter)).slice(0, 90);

    function lettersOf(steps) {
        return steps.map(step => step >= -45 && step < 45 ? LETTERS[step + 45] : `~${step};`)
            .join("");
    }

    // For each tune, which value of a table is its own.
    function placesOf(pairs) {
        const places = new Uint16Array(pairs.length / 2);
        for (let at = 0; at < places.length; at++) {
            places[at] = 90 * LETTERS.indexOf(pairs[2 * at]) + LETTERS.indexOf(pairs[2 * at + 1]);
        }
        return places;
    }

    // The index made ready to be asked.
    function opened(index) {
        const numbers = [];
        for (const run of index.numbers ? index.numbers.split(",") : []) {
            const [first, last = first] = run.split("-").map(Number);
            for (let number = first; number <= last; number++) numbers.push(number);
        }
        const each = (text, mark) => numbers.length ? text.split(mark) : [];
        return {
            numbers, notes: index.notes, bytes: index.bytes, rhythms: index.rhythms,
            scales: index.scales,
            titles: each(index.titles, "\n").map(all => all ? all.split("\r") : []),
            openings: each(index.openings, " "),
            ofRhythm: placesOf(index.ofRhythm), ofScale: placesOf(index.ofScale),
            foldedTitles: null,
        };
    }

    function foldedTitles(tunes) {
        tunes.foldedTitles ??= tunes.titles.map(all => all.map(folded));
        return tunes.foldedTitles;
    }

    // CONDITIONS: of each, whether it gives the tune at a place; or null, where it asks for nothing

    function byTitle(tunes, words) {
        if (trimmed(words) === "") return null;
        const sought = folded(sortingTitle(words)), bytes = bytesOf(sortingTitle(words));
        return place => foldedTitles(tunes)[place].some(title => title.startsWith(sought))
            || (tunes.bytes[place] ?? []).some(title => title.startsWith(bytes));
    }

    function byWords(tunes, words) {
        if (!words.some(word => word !== "")) return null;
        const sought = words.map(folded);
        return place => foldedTitles(tunes)[place]
            .some(title => sought.every(word => title.includes(word)));
    }

    function byRhythm(tunes, rhythm) {
        if (rhythm === "") return null;
        const sought = tunes.rhythms.map(each => smallLetters(each) === smallLetters(rhythm));
        return place => sought[tunes.ofRhythm[place]];
    }

    function byKey(tunes, key) {
        const {scale} = keyOf(key);
        if (scale === "") return null;
        return place => tunes.scales[tunes.ofScale[place]] === scale;
    }

    const SIGNATURES = ["Cb", "Gb", "Db", "Ab", "Eb", "Bb", "F", "C", "G", "D", "A", "E", "B",
                        "F#", "C#"];

    function byNotes(tunes, notes, key) {
        const all = (key === undefined ? SIGNATURES : [key])
            .map(each => stepsOf(`[K:${each}]${notes}`, tunes.notes));
        if (all.some(steps => steps.length === 0)) return null;
        const sought = all.map(lettersOf);
        return place => sought.some(front => tunes.openings[place].startsWith(front));
    }

    // The places of the tunes that meet all conditions, by number; or null, where one of them asks
    // for nothing. `title`, `rhythm`, `key`, `notes` and `in` are texts, `within` a list of words.
    function find(tunes, sought) {
        const conditions = [];
        if (sought.title !== undefined) conditions.push(byTitle(tunes, sought.title));
        if (sought.within !== undefined) conditions.push(byWords(tunes, sought.within));
        if (sought.rhythm !== undefined) conditions.push(byRhythm(tunes, sought.rhythm));
        if (sought.key !== undefined) conditions.push(byKey(tunes, sought.key));
        if (sought.notes !== undefined) conditions.push(byNotes(tunes, sought.notes, sought.in));
        if (conditions.includes(null)) return null;
        const places = [];
        for (let place = 0; place < tunes.numbers.length; place++) {
            if (conditions.every(gives => gives(place))) places.push(place);
        }
        return places;
    }

    return {opened, find, folded, keyOf, stepsOf};
})();

if (typeof module !== "undefined") module.exports = tunesFind;
