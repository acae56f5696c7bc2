// The keys of the page, what becomes of data, and licences.

import { byId, element, openDialog } from "./elements.mjs";
import { PRIVATE } from "./landing.mjs";

const KEYS = {
    Everywhere: [
        ["Tab", "goes through all controls"], ["← →", "on a tab: the next view"], ["/", "search or filter in the view"],
    ],
    Timeline: [
        ["← →", "move"], ["+ −", "zoom"], ["0", "the whole recording"], ["Home End", "its beginning and end"],
        ["Shift ← →", "select a range"], ["Shift Home End", "extend it to the beginning or end"],
        ["Z", "zoom to the selection"], ["Esc", "clear the selection"], ["↑ ↓", "choose a lane"],
        [", .", "the marks of the lane"], ["Enter", "filter by the lane"], ["wheel, Shift wheel", "zoom, move"],
        ["drag", "select a range"],
    ],
    "Flame graph": [
        ["↑ ↓ ← →", "the box above, the largest below, those beside"], ["Enter", "zoom in"], ["Esc", "zoom out"],
        ["N, Shift N", "the next and the last box that is found"],
    ],
    Tables: [["↑ ↓, Page, Home, End", "choose a row"], ["Enter", "of tasks: filter by it; of records: its bytes"]],
};

export function showHelp() {
    const lists = Object.entries(KEYS).flatMap(([title, keys]) => [
        element("h3", {}, title),
        element("dl", { class: "facts" }, ...keys.flatMap(([key, what]) =>
            [element("dt", {}, element("kbd", {}, key)), element("dd", {}, what)])),
    ]);
    const { textContent, dataset } = byId("licences");
    openDialog("Keys and help", ...lists, element("h3", {}, "Your data"), element("p", {}, PRIVATE),
        element("h3", {}, `perf_event_data ${dataset.version}: licences`),
        element("pre", { class: "licences" }, textContent));
}
