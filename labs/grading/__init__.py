"""What `labs/grade` is made of: `course` grades folders, `checks` has what a check can do, `sources` and `making` make
programs of a student's texts, `facts` and `models` look at a history, `drawn` draws cases, `told` prints what came of it."""
