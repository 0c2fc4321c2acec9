
// What the comparison reads of the original's private state, its step, and its pointer moved on. The Makefile puts it behind the original's
// root file, which itself stays as it is.
impl<'a> Mm<'a> {
    pub fn probe_ip(&self) -> usize {
        self.ip
    }

    pub fn probe_onward(&mut self) {
        self.ip += 1;
    }

    pub fn probe_flags(&self) -> u8 {
        [Flag::E, Flag::L, Flag::LE, Flag::G, Flag::GE, Flag::NE, Flag::Z, Flag::NZ]
            .into_iter()
            .enumerate()
            .map(|(i, f)| (self.flags.is(f) as u8) << i)
            .sum()
    }

    pub fn probe_calls(&self) -> &VecDeque<usize> {
        &self.call_stack
    }

    pub fn probe_memory(&self) -> &[u8; MEMORY_CAP] {
        &self.memory
    }

    pub fn probe_step(&mut self, program: &'a Program) -> Result<(), Trap<'a>> {
        self.execute_instruction(program)
    }
}
