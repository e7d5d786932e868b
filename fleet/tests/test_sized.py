"""The truth of epochs of issuers of different sizes, held against tools/reference.py's."""

from fleet.tests.sized_epochs import History, Truth, is_referred


def test_the_truth_is_the_references() -> None:
    truth = Truth(History(4000))
    assert set().union(*truth.counts) == {"unread", "uncovered", "unenrolled", "late", "accepted"}
    assert is_referred(truth)
    assert {is_revoked for _, _, is_revoked in truth.accepted()} == {False, True}
