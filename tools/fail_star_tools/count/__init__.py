"""Counts of sites: by outcome, by place, beside a budget, from a sample."""
