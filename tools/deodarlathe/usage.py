"""What --help says of each command beyond its arguments."""

WRITE_NOTE = """One call to a line:

  open PLACES LIMIT
  open PLACES LIMIT factors WEIGHT MOISTURE SPEED DRAW
  open PLACES LIMIT factors WEIGHT MOISTURE SPEED DRAW rule RULE
  submit STATION add GRADE WEIGHT MOISTURE SPEED DRAW CURVE
  submit STATION remove|contains|nearest GRADE WEIGHT MOISTURE SPEED DRAW
  step STATION, run STATION, take STATION or withdraw STATION

What follows a '#' is a comment. Numbers are decimal; the call of a submission may be a number, 0 to
255, and one that is no add may have a curve too. An opening without factors has four ones, and
without a rule it has rule 1; rule 2 is by dry weight. Widths alone are looked at: whether a number
is in range is for the index to say."""
READ_NOTE = """The text writes back as the same bytes. Where the runner would stop, with 13, 14 or 15, a comment
says so and the status is 1."""
EXPLAIN_NOTE = """A sentence for each frame that the runner reads: what it did, or why it was refused."""
ADDS_NOTE = """The header names grade, weight, moisture, speed, draw and curve in any order; other columns are
not looked at. Cells are parted by commas, semicolons or tabs, and are whole numbers in their ranges
(Rules 1.1, 1.2); a moisture of 10,000 is one too, though rule 2 refuses it. The text has a
submission, its run and its taking for each record; an opening goes before it."""
CSV_NOTE = """Where no answer was taken its eight cells are empty."""
DRAW_NOTE = """It shows the tree with its cuts, the queue, the eight stations and where their calls stand, the
factors where they are not all 1, and the rule where it is 2. The frames are played by a model of
the rules."""
