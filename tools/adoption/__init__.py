"""What tools/adopt.py makes of a runtime's own .proto file, a module for each step: pairs and codes say what belongs
together, taken and further what comes of it, written the description, report what is said of it, copying the copy, and
sample a stream of theirs."""
