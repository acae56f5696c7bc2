// Colours of what is drawn. Texts have a contrast of at least 4.5 to 1, marks and bars one of 3 to 1.

const LIGHT = {
    ground: "#ffffff", raised: "#f5f6f8", stripe: "#fafbfc", line: "#dde1e6", text: "#1a1f26", quiet: "#555f6b",
    accent: "#0b57a4", chosen: "#dcebfb", density: "#2f77bd", running: "#177a4f", shade: "rgba(11,87,164,0.12)",
    veil: "rgba(90,105,120,0.16)",
    marks: { comm: "#8a5a00", exec: "#6d3fc0", fork: "#177a4f", exit: "#a81c13", lost: "#c2185b" },
    box: { saturation: 0.62, lightness: 0.79, text: "#131a22" },
    grey: "#d3d9e0", pale: "#e9ecf0", paleText: "#4d5662", found: "#a3008f", foundText: "#ffffff",
};
const DARK = {
    ground: "#15181c", raised: "#1c2025", stripe: "#181c20", line: "#2e343c", text: "#e4e8ed", quiet: "#a3adb9",
    accent: "#84bcff", chosen: "#1f3550", density: "#5b9fe0", running: "#4cc38a", shade: "rgba(132,188,255,0.16)",
    veil: "rgba(160,175,190,0.16)",
    marks: { comm: "#e0b050", exec: "#b79bff", fork: "#4cc38a", exit: "#ff9a8f", lost: "#ff7fb0" },
    box: { saturation: 0.36, lightness: 0.3, text: "#f1f4f7" },
    grey: "#3a424c", pale: "#22272d", paleText: "#a3adb9", found: "#e58be0", foundText: "#14060f",
};

/** Whether the page is dark, by its own choice or the reader's. */
export function isDark() {
    const { theme } = document.documentElement.dataset;
    return theme ? theme === "dark" : matchMedia("(prefers-color-scheme: dark)").matches;
}

export function coloursOf(dark) {
    return dark ? DARK : LIGHT;
}

/** A colour of a hue from 0 to 360 as #rrggbb. */
export function hueText(hue, saturation, lightness) {
    const reach = saturation * Math.min(lightness, 1 - lightness);
    const part = (shift) => {
        const step = (shift + hue / 30) % 12;
        const value = lightness - reach * Math.max(-1, Math.min(step - 3, 9 - step, 1));
        return Math.round(255 * value).toString(16).padStart(2, "0");
    };
    return `#${part(0)}${part(8)}${part(4)}`;
}

function hashOf(text) {
    let hash = 2166136261;
    for (let index = 0; index < text.length; index += 1) {
        hash = Math.imul(hash ^ text.charCodeAt(index), 16777619) >>> 0;
    }
    return hash;
}

/** The colour of a frame: one hue for the kernel, one for each file; grey if it has no place. */
export function boxColour(name, colours) {
    const { saturation, lightness } = colours.box;
    if (name === "[unknown]") {
        return colours.grey;
    }
    if (name.endsWith("_[k]")) {
        return hueText(18 + hashOf(name) % 18, saturation + 0.16, lightness);
    }
    const file = name.replace(/\+0x[0-9a-f]+$/, "");
    const shade = (hashOf(name) % 7 - 3) / 100;
    return hueText(60 + hashOf(file) % 215, saturation, lightness + shade);
}
