"""what the program costs: instructions, seconds, memory"""
