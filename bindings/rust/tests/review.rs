//! A form with a rating of stars, which is the component of examples/review.script: what it does, as a test.
use cepage::{run, Cause, Error, Outcome, Run, Session, Status};

const SCRIPT: &str = include_str!("../../../examples/review.script");

/// The script is run, and each test asks what it did.
fn review() -> Result<Run, Error> {
    let review = run(SCRIPT)?;
    review.expect_status(Status::Done);
    Ok(review)
}

#[test]
fn without_a_star_nothing_is_sent() -> Result<(), Error> {
    let review = review()?;
    let rating = review.find("create $rating x-rating")[0].node();
    let first = &review.find("user press $publish")[0];
    assert_eq!(first.lines().submissions()[0].outcome, Outcome::Blocked(Cause::Invalid(vec![rating])), "{first}");
    Ok(())
}

#[test]
fn a_star_is_sent_under_the_name_of_the_rating() -> Result<(), Error> {
    let second = &review()?.find("user press $publish")[1];
    second.expect_sent([("title", "Good tea"), ("stars", "4"), ("do", "publish")]);
    Ok(())
}

#[test]
fn the_rating_hears_of_the_reset_and_takes_its_value_away() -> Result<(), Error> {
    let review = review()?;
    let rating = review.find("create $rating x-rating")[0].node();
    review.find("user press $clear")[0].expect_heard(rating, ["formReset", "attribute"]);
    Ok(())
}

/// A test that goes on by what was answered: a rating alone, a command at a time.
#[test]
fn a_rating_is_missing_until_a_star_is_chosen() -> Result<(), Error> {
    let mut page = Session::new()?;
    page.feed(SCRIPT.split("# <form").next().unwrap_or(SCRIPT))?;
    let rating = page.command("create $rating x-rating")?.node();
    page.command("ask valid $rating")?.expect_reply("valueMissing");
    let chosen = format!("call {rating} attribute \"value\" null \"4\"");
    page.command("setattr $rating value 4")?.expect([chosen.as_str(), "ok"]);
    page.command("ask valid $rating")?.expect_reply("valid");
    page.command("ask value $rating")?.expect_reply("\"4\"");
    Ok(())
}
