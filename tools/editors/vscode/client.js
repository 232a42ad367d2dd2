// A small client of the Language Server Protocol over a child process: requests, answers and notifications.
"use strict";
const { spawn } = require("child_process");

class Client {
  constructor(command, onNotification) {
    this.next = 1;
    this.waiting = new Map();
    this.input = Buffer.alloc(0);
    this.onNotification = onNotification;
    this.onRequest = () => null;
    this.process = spawn(command, [], { stdio: ["pipe", "pipe", "inherit"] });
    this.process.stdout.on("data", (data) => this.took(data));
    this.process.stdin.on("error", () => undefined);
    this.process.on("error", (error) => this.ended(error));
    this.process.on("exit", () => this.ended(new Error("the language server has ended")));
  }

  ended(error) {
    for (const { reject } of this.waiting.values()) {
      reject(error);
    }
    this.waiting.clear();
  }

  send(message) {
    const body = Buffer.from(JSON.stringify({ jsonrpc: "2.0", ...message }), "utf8");
    this.process.stdin.write(`Content-Length: ${body.length}\r\n\r\n`);
    this.process.stdin.write(body);
  }

  notify(method, params) {
    this.send({ method, params });
  }

  request(method, params) {
    const id = this.next++;
    return new Promise((resolve, reject) => {
      this.waiting.set(id, { resolve, reject });
      this.send({ id, method, params });
    });
  }

  took(data) {
    this.input = Buffer.concat([this.input, data]);
    for (;;) {
      const end = this.input.indexOf("\r\n\r\n");
      const found = end < 0 ? null : /content-length: *(\d+)/i.exec(this.input.toString("ascii", 0, end));
      if (!found || this.input.length < end + 4 + Number(found[1])) {
        return;
      }
      const last = end + 4 + Number(found[1]);
      const message = JSON.parse(this.input.toString("utf8", end + 4, last));
      this.input = this.input.subarray(last);
      this.take(message);
    }
  }

  async take(message) {
    if (message.method && message.id !== undefined) {
      this.send({ id: message.id, result: await this.onRequest(message.method, message.params) });
    } else if (message.method) {
      this.onNotification(message.method, message.params);
    } else if (this.waiting.has(message.id)) {
      const { resolve, reject } = this.waiting.get(message.id);
      this.waiting.delete(message.id);
      message.error ? reject(new Error(message.error.message)) : resolve(message.result);
    }
  }
}

module.exports = { Client };
