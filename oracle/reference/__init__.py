"""Document 01 written once more, plainly, from its text alone, and what document 02 adds.

One module for each section of document 01: `sheet` (the packed sheet), `fold` (the numbers of the answer), `points`
(from rules to points), `day` (from a list to a day), `groups` (from points to rules), `lookup` (the state lookup),
`worked` (the worked days). `line` is 02's M-100, one line of text, `overlap` its M-101, ranges that share a value, `why` its
M-105, why the fold stopped, `convert` its M-106, a sheet moved to the other form, whose layout stands in `sheet`, `counts`
its M-107, what form 1 can't count, and `lists` its M-108, how many lists may differ. All entries take the caller's form first.
`build` writes rules down shortly, `large` those of sheets at the limits of M-107, `many_lists` those at the limit of M-108; `check`
holds the computation over boxes against the literal reading at sampled points, and the answers in one form against those in the
other.
"""
