"""Order desks that stay open, tried: tools/desk_cases, tools/desk_trials and tools/desk_speed."""
