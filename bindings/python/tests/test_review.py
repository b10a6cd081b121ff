"""A form with a rating of stars, which is the component of examples/review.script: what it does, as a test."""
import pathlib
import unittest

from cepage import Session, Status, run

SCRIPT = pathlib.Path(__file__).resolve().parents[3] / "examples" / "review.script"


class Review(unittest.TestCase):
    """The script is run once, and each test asks what it did."""

    @classmethod
    def setUpClass(cls) -> None:
        cls.review = run(SCRIPT.read_text(encoding="utf-8"))
        cls.review.expect_status(Status.DONE)

    def test_without_a_star_nothing_is_sent(self) -> None:
        first = self.review.find("user press $publish")[0]
        rating = self.review.find("create $rating x-rating")[0].node
        self.assertEqual(first.submissions()[0].invalid, (rating,), first)

    def test_a_star_is_sent_under_the_name_of_the_rating(self) -> None:
        second = self.review.find("user press $publish")[1]
        second.expect_sent(("title", "Good tea"), ("stars", "4"), ("do", "publish"))

    def test_the_rating_hears_of_the_reset_and_takes_its_value_away(self) -> None:
        rating = self.review.find("create $rating x-rating")[0].node
        self.review.find("user press $clear")[0].expect_heard(rating, "formReset", "attribute")


class Rating(unittest.TestCase):
    """A test that goes on by what was answered: a rating alone, a command at a time."""

    def test_a_rating_is_missing_until_a_star_is_chosen(self) -> None:
        with Session() as page:
            page.feed(SCRIPT.read_text(encoding="utf-8").partition("# <form")[0])
            rating = page.command("create $rating x-rating").node
            page.command("ask valid $rating").expect_reply("valueMissing")
            page.command("setattr $rating value 4").expect(f'call {rating} attribute "value" null "4"', "ok")
            page.command("ask valid $rating").expect_reply("valid")
            self.assertEqual(page.command("ask value $rating").value, "4")


if __name__ == "__main__":
    unittest.main()
