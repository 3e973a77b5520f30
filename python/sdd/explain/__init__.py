"""What a refusal means, what is wrong there, and what helps."""
