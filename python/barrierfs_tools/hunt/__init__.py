"""What must hold of a volume's calls, whenever the power goes off and whatever the schedule: claims, and what looks for a
schedule that breaks one."""
