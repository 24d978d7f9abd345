"""writes the worked rows of crates/, which the gate runs"""
