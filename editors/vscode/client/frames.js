"use strict";

// Messages of JSON-RPC behind a header that tells how many bytes they have.

/** The bytes of a message. */
function frame(message) {
  const content = Buffer.from(JSON.stringify(message), "utf8");
  return Buffer.concat([Buffer.from(`Content-Length: ${content.length}\r\n\r\n`, "ascii"), content]);
}

/** Cuts bytes, as they come, into messages. */
class FrameReader {
  constructor() {
    this.bytes = Buffer.alloc(0);
  }

  /** Takes more bytes, and returns the messages that are whole now. */
  push(piece) {
    this.bytes = Buffer.concat([this.bytes, piece]);
    const messages = [];
    for (let content = this.take(); content !== undefined; content = this.take()) {
      messages.push(JSON.parse(content.toString("utf8")));
    }
    return messages;
  }

  take() {
    const head = this.bytes.indexOf("\r\n\r\n");
    if (head < 0) return undefined;
    const length = /^content-length: *(\d+)/im.exec(this.bytes.toString("ascii", 0, head));
    if (!length) throw new Error("the server sent a message without its length");
    const start = head + 4;
    const end = start + Number(length[1]);
    if (this.bytes.length < end) return undefined;
    const content = this.bytes.subarray(start, end);
    this.bytes = this.bytes.subarray(end);
    return content;
  }
}

module.exports = { frame, FrameReader };
