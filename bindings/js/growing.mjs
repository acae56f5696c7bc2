// Typed arrays that grow.

/** An array of the same type with more room, which has the same numbers at its front. */
export function withRoom(array, room) {
    const more = new array.constructor(room);
    more.set(array);
    return more;
}

/** A typed array that grows by itself. */
export class Growing {
    constructor(Type, room = 1024) {
        this.array = new Type(room);
        this.length = 0;
    }

    /** Makes room for `count` more numbers, which the caller puts there, and returns the place of the first. */
    extend(count) {
        const first = this.length;
        this.length += count;
        if (this.length > this.array.length) {
            this.array = withRoom(this.array, Math.max(2 * this.array.length, this.length));
        }
        return first;
    }

    /** Puts a number at the end, and returns its place. */
    push(value) {
        const place = this.extend(1);
        this.array[place] = value;
        return place;
    }
}
