"""the program beside elements, journals and scripts that are reckoned anew from the documents"""
