// Calls of the worker that reads.

/** Why a call has no result, because reading was stopped. */
export class Stopped extends Error {}

/** The address of the worker's script, which is in the page. */
function workerAddress() {
    const script = document.getElementById("worker").textContent;
    const address = URL.createObjectURL(new Blob([script], { type: "text/javascript" }));
    const policy = self.trustedTypes?.createPolicy("worker", { createScriptURL: (text) => text });
    return policy ? policy.createScriptURL(address) : address;
}

export class WorkerLink {
    #address = workerAddress();
    #worker;
    #waiting = new Map();
    #calls = 0;
    #onprogress;

    constructor(onprogress) {
        this.#onprogress = onprogress;
    }

    #start() {
        this.#worker = new Worker(this.#address);
        this.#worker.onmessage = ({ data }) => this.#receive(data);
        this.#worker.onerror = (event) => {
            event.preventDefault();
            this.#end(new Error(event.message || "the worker that reads has ended, perhaps out of memory"));
        };
        this.#worker.onmessageerror = () => this.#end(new Error("a result could not be received"));
    }

    #receive({ id, result, error, progress }) {
        if (progress) {
            this.#onprogress(progress);
            return;
        }
        const waiting = this.#waiting.get(id);
        this.#waiting.delete(id);
        this.#tell();
        if (error === undefined) {
            waiting?.resolve(result);
        } else {
            waiting?.reject(new Error(error));
        }
    }

    /** Tells readers of the screen whether more is to come. */
    #tell() {
        document.getElementById("main").setAttribute("aria-busy", String(this.#waiting.size > 0));
    }

    /** Returns what the worker gives for a call. */
    call(name, words = {}, transfer = []) {
        const id = ++this.#calls;
        return new Promise((resolve, reject) => {
            this.#waiting.set(id, { resolve, reject });
            this.#tell();
            if (!this.#worker) {
                this.#start();
            }
            this.#worker.postMessage({ id, call: name, ...words }, transfer);
        });
    }

    /** Ends the worker; the next call starts another one. */
    #end(why) {
        this.#worker?.terminate();
        this.#worker = undefined;
        const waiting = [...this.#waiting.values()];
        this.#waiting.clear();
        this.#tell();
        waiting.forEach(({ reject }) => reject(why));
    }

    /** Ends what is running; its calls throw `Stopped`. */
    stop() {
        this.#end(new Stopped("stopped"));
    }
}

/** Runs one piece of work at a time and, of those that come meanwhile, only the last. */
export class Latest {
    #isBusy = false;
    #next;

    async run(work) {
        this.#next = work;
        if (this.#isBusy) {
            return;
        }
        this.#isBusy = true;
        try {
            while (this.#next) {
                const now = this.#next;
                this.#next = undefined;
                await now();
            }
        } finally {
            this.#isBusy = false;
        }
    }
}
