"""real processes that are crowded, killed, cut off, and refused memory, disk and descriptors"""
