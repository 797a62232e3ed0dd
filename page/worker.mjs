// The worker: it answers questions, each by a module of its own, whose memory never shrinks.
import { replyTo } from "./answers.mjs";
import { Library } from "./library.mjs";

addEventListener("message", async ({ data }) => {
  postMessage(await replyTo(data, () => Library.load(data.module), (progress) => postMessage(progress)));
});
