"""What is doubtful in a list, whatever the audit says: each doubt by name and line, with what to do."""
