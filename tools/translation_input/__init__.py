"""What tools/translation-input is made of."""
