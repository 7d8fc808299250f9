// Which message of the call that was given last is shown: a call is given as a whole, and seen message by message.

export class Messages {
  constructor() {
    this.shown = null; // so many messages of that call, or null for all
    this.place = null; // of which lines they are
    this.upcoming = null;
    this.isByMessage = false; // whether it was stepped to a message, and not to a call
  }

  // What is shown once the tape has moved: all of the last call, or what was wanted before it moved.
  follow({ lines, at }) {
    const place = JSON.stringify([at, lines.slice(0, at)]);
    if (place !== this.place) {
      this.shown = this.upcoming;
      this.isByMessage = this.upcoming !== null;
    }
    this.place = place;
    this.upcoming = null;
  }

  // A drawing says how many there are; none if it isn't of this call yet.
  limit(count) {
    if (this.shown !== null && count > 0 && this.shown >= count) this.shown = null;
  }

  // One message on within the call; false where all are shown.
  goOn(count) {
    if (this.shown === null) return false;
    this.shown = count > 0 ? this.shown + 1 : null;
    this.isByMessage = true;
    this.limit(count);
    return true;
  }

  // One message back within the call; false where the first is shown, or there is but one.
  goBack(count) {
    const shown = (this.shown ?? count) - 1;
    if (shown < 1) return false;
    this.shown = shown;
    this.isByMessage = true;
    return true;
  }

  // All messages of the call, at once.
  showAll() {
    this.shown = null;
    this.isByMessage = false;
  }

  isWithin() {
    return this.shown !== null;
  }
}
