// The worker of the page: it loads the library, opens a recording, and returns what the page shows of it.

import * as library from "../js/perf_event_data.mjs";
import { server } from "./model/protocol.mjs";

self.onmessage = (() => {
    const take = server(library, (message, buffers) => self.postMessage(message, buffers));
    return ({ data }) => take(data);
})();
