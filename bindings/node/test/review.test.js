// A form with a rating of stars, which is the component of examples/review.script: what it does, as a test.
import assert from "node:assert/strict";
import { readFileSync } from "node:fs";
import { suite, test } from "node:test";
import { Session, run } from "cepage";

const script = readFileSync(new URL("../../../examples/review.script", import.meta.url), "utf8");

// The script is run once, and each test asks what it did.
suite("a review", () => {
  const review = run(script);
  const rating = review.find("create $rating x-rating")[0].node;

  test("each line is accepted", () => review.expectStatus("Done"));

  test("without a star nothing is sent", () => {
    const [first] = review.find("user press $publish");
    assert.deepEqual(first.submissions()[0].invalid, [rating]);
  });

  test("a star is sent under the name of the rating", () => {
    const [, second] = review.find("user press $publish");
    second.expectSent(["title", "Good tea"], ["stars", "4"], ["do", "publish"]);
  });

  test("the rating hears of the reset, and takes its value away", () => {
    review.find("user press $clear")[0].expectHeard(rating, "formReset", "attribute");
  });
});

// A test that goes on by what was answered: a rating alone, a command at a time.
test("a rating is missing until a star is chosen", async () => {
  const page = new Session();
  await page.feed(script.split("# <form")[0]);
  const rating = (await page.command("create $rating x-rating")).node;
  (await page.command("ask valid $rating")).expectReply("valueMissing");
  (await page.command("setattr $rating value 4")).expect(`call #${rating} attribute "value" null "4"`, "ok");
  (await page.command("ask valid $rating")).expectReply("valid");
  assert.equal((await page.command("ask value $rating")).value, "4");
  await page.close();
});
