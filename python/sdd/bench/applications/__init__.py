"""Known applications, each as a catalogue in several designs and a generator of its transactions."""
