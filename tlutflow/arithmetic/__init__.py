"""Arithmetic in which a parameter is a factor, as tables.

A sum of products in which one factor depends on parameters alone is a linear form: a constant and words of parameters, each multiplied by a
data bit. A few data bits select an entry of a table of sums of such words. An entry is logic of parameters alone, so each bit of a table is one
tunable LUT whose inputs are the data bits. If the bits are those of equal weight of several operands, this is distributed arithmetic (White,
1989); if they are neighbours in one operand, they are its digit. The words of all tables are added in carry-save form by compressors (Dadda,
1965), and at the end by one adder. Parameters as functions of configuration bits are due to Bruneel, Heirman and Stroobandt (2011); filters
whose tables are rewritten in place to Kumm, Moeller and Zipf (2013).

`words` reads a design at word level, `sums` its cells, `linear` their linear forms; `tables`, `heap` and `adders` build a sum on a sheet of
`gates`, and `modules` writes it, with its `certificate`. `checker` verifies a certificate against the gates as they are written, and shares
only the certificate's form with the rest. `replacing` does this for a whole design, and `variants` lists the ways that are tried.
"""
