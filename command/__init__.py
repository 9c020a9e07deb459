"""The commands on files, over the proved programs."""
