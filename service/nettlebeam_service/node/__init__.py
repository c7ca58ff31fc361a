"""The program at a node, `nettlebeam-node`, and the runner beside each job's script."""
