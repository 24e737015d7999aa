// What an engine costs that does nothing.
print(1);
