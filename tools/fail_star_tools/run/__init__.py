"""What calls programs: fail_star and fail_replay, builds, sweeps; and what writes files whole."""
