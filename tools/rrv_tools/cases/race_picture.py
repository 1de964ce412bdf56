"""The picture of a race, docs/race.svg, beside what tools/run race_picture draws of a recording of the example.

Expected values: what `tools/run race_picture` prints of the example's recording.
"""
from rrv_tools import race_picture
from rrv_tools.testing import Case


class RacePicture(Case):
    """The picture of the repository."""

    def test_example(self) -> None:
        """It is the example's."""
        picture = race_picture.PICTURE.read_text(encoding="utf-8")
        self.need("docs/race.svg", race_picture.example(self.program), picture)
