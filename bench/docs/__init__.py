"""what the documents tell to type"""
