"use strict";

const { spawn } = require("child_process");
const { frame, FrameReader } = require("./frames");

/** A server that runs as a child process, and the requests that it has not answered yet. */
class Connection {
  /**
   * @param {string} program
   * @param {string[]} words
   * @param {{ hear: (method: string, params: any) => void, end: (why: string) => void }} listener
   */
  constructor(program, words, listener) {
    this.listener = listener;
    this.waiting = new Map();
    this.count = 0;
    this.isOpen = true;
    this.reader = new FrameReader();
    this.server = spawn(program, words, { stdio: ["pipe", "pipe", "ignore"] });
    this.server.on("error", (error) => this.close(error.message));
    this.server.on("exit", (status) => this.close(`it ended with ${status}`));
    this.server.stdin.on("error", () => {});
    this.server.stdout.on("data", (piece) => this.read(piece));
  }

  /** Sends a request. The promise is rejected where the server answers by an error, or ends. */
  request(method, params, token) {
    if (!this.isOpen) return Promise.reject(new Error("the server has ended"));
    const id = ++this.count;
    token?.onCancellationRequested(() => this.notify("$/cancelRequest", { id }));
    return new Promise((resolve, reject) => {
      this.waiting.set(id, { resolve, reject });
      this.send({ jsonrpc: "2.0", id, method, params });
    });
  }

  notify(method, params) {
    if (this.isOpen) this.send({ jsonrpc: "2.0", method, params });
  }

  /** Shuts the server down, and ends it. */
  async stop() {
    if (!this.isOpen) return;
    await this.request("shutdown").catch(() => {});
    this.listener.end = () => {};
    this.notify("exit");
    this.server.stdin.end();
  }

  send(message) {
    this.server.stdin.write(frame(message));
  }

  read(piece) {
    try {
      this.reader.push(piece).forEach((message) => this.take(message));
    } catch (error) {
      this.server.kill();
      this.close(error.message);
    }
  }

  take(message) {
    if (message.method !== undefined) {
      this.listener.hear(message.method, message.params);
      return;
    }
    const asked = this.waiting.get(message.id);
    if (!asked) return;
    this.waiting.delete(message.id);
    if (message.error) asked.reject(new Error(message.error.message));
    else asked.resolve(message.result);
  }

  close(why) {
    if (!this.isOpen) return;
    this.isOpen = false;
    for (const { reject } of this.waiting.values()) reject(new Error("the server has ended"));
    this.waiting.clear();
    this.listener.end(why);
  }
}

module.exports = { Connection };
