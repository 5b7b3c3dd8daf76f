//! The parts of a filestore that source.rs never calls, for the filestores of `harness` and of `cost`.
macro_rules! uncalled {
    () => {
        fn create_file(&self, _: &str) -> Result<(), FilestoreError> {
            Err(FilestoreError::Other)
        }
        fn remove_file(&self, _: &str) -> Result<(), FilestoreError> {
            Err(FilestoreError::Other)
        }
        fn truncate_file(&self, _: &str) -> Result<(), FilestoreError> {
            Err(FilestoreError::Other)
        }
        fn remove_dir(&self, _: &str, _: bool) -> Result<(), FilestoreError> {
            Err(FilestoreError::Other)
        }
        fn create_dir(&self, _: &str) -> Result<(), FilestoreError> {
            Err(FilestoreError::Other)
        }
        fn write_data(&self, _: &str, _: u64, _: &[u8]) -> Result<(), FilestoreError> {
            Err(FilestoreError::Other)
        }
        fn filename_from_full_path(path: &str) -> Option<&str> {
            Some(path)
        }
        fn file_name<'a>(&self, p: &'a str) -> Result<Option<&'a str>, FilestoreError> {
            Ok(Some(p))
        }
    };
}
