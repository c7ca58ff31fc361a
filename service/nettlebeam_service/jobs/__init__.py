"""Jobs from the plan to their end: grants, begins, starts, and the runs on their nodes."""
