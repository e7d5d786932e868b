"""An epoch over many machines: a Snakemake workflow over the program (README.md)."""
